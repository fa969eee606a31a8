// Boost: a compressed sparse row graph, and Dijkstra without a colour map,
// which Boost runs on its indexed 4-ary heap.

#include "peer.h"

#include <boost/graph/compressed_sparse_row_graph.hpp>
#include <boost/graph/dijkstra_shortest_paths_no_color_map.hpp>
#include <limits>
#include <utility>
#include <vector>

struct Row {
    std::uint32_t weight;
};

using Graph = boost::compressed_sparse_row_graph<boost::directedS, boost::no_property, Row,
                                                 boost::no_property, std::uint32_t, std::uint32_t>;

struct Peer {
    Graph graph;
    std::uint32_t source;
    std::vector<std::uint64_t> distances;
};

static Graph graph_of(const Sheet &sheet)
{
    std::vector<std::pair<std::uint32_t, std::uint32_t>> ends;
    std::vector<Row> rows;
    for (std::uint32_t v = 0; v < sheet.n; v++)
        for (std::uint32_t row = sheet.starts[v]; row < sheet.starts[v + 1]; row++) {
            ends.emplace_back(v, sheet.targets[row]);
            rows.push_back(Row{sheet.weights[row]});
        }
    return Graph(boost::edges_are_sorted, ends.begin(), ends.end(), rows.begin(), sheet.n,
                 sheet.h);
}

static void run(void *given)
{
    Peer &peer = *static_cast<Peer *>(given);
    std::vector<std::uint64_t> distances(boost::num_vertices(peer.graph));
    boost::dijkstra_shortest_paths_no_color_map(
        peer.graph, peer.source,
        boost::weight_map(boost::get(&Row::weight, peer.graph))
            .distance_map(boost::make_iterator_property_map(
                distances.begin(), boost::get(boost::vertex_index, peer.graph))));
    peer.distances = std::move(distances);
}

int main(int count, char **given)
{
    unsigned rounds = rounds_asked(count, given);
    Sheet sheet = read_sheet(given[2]);
    Peer peer{graph_of(sheet), sheet.source, {}};
    std::uint64_t least = least_time(run, &peer, rounds), sum = 0, reached = 0;
    for (std::uint64_t distance : peer.distances)
        if (distance != std::numeric_limits<std::uint64_t>::max()) {
            sum += distance;
            reached++;
        }
    tell("boost", least, sum, reached);
}
