// LEMON: a static digraph, and Dijkstra on a binary heap. It keeps
// predecessors too, as it does unless told otherwise. The templates alone are
// used: distributions name the library to link differently.
#define LEMON_ONLY_TEMPLATES

#include "peer.h"

#include <lemon/bin_heap.h>
#include <lemon/dijkstra.h>
#include <lemon/static_graph.h>
#include <utility>
#include <vector>

using Graph = lemon::StaticDigraph;
using Lengths = Graph::ArcMap<std::uint64_t>;
using Heap = lemon::BinHeap<std::uint64_t, Graph::NodeMap<int>>;
using Dijkstra = lemon::Dijkstra<Graph, Lengths>::SetStandardHeap<Heap>::Create;

struct Peer {
    const Graph &graph;
    const Lengths &lengths;
    Graph::Node source;
    std::uint64_t sum, reached;
    bool telling;
};

static void run(void *given)
{
    Peer &peer = *static_cast<Peer *>(given);
    Dijkstra dijkstra(peer.graph, peer.lengths);
    dijkstra.run(peer.source);
    if (!peer.telling)
        return;
    for (Graph::NodeIt v(peer.graph); v != lemon::INVALID; ++v)
        if (dijkstra.reached(v)) {
            peer.sum += dijkstra.dist(v);
            peer.reached++;
        }
}

int main(int count, char **given)
{
    unsigned rounds = rounds_asked(count, given);
    Sheet sheet = read_sheet(given[2]);
    std::vector<std::pair<int, int>> ends;
    for (std::uint32_t v = 0; v < sheet.n; v++)
        for (std::uint32_t row = sheet.starts[v]; row < sheet.starts[v + 1]; row++)
            ends.emplace_back(static_cast<int>(v), static_cast<int>(sheet.targets[row]));
    Graph graph;
    graph.build(static_cast<int>(sheet.n), ends.begin(), ends.end());
    Lengths lengths(graph);
    for (std::uint32_t row = 0; row < sheet.h; row++)
        lengths[graph.arc(static_cast<int>(row))] = sheet.weights[row];
    Peer peer{graph, lengths, graph.node(static_cast<int>(sheet.source)), 0, 0, false};
    std::uint64_t least = least_time(run, &peer, rounds);
    peer.telling = true; // once more, outside the timing
    run(&peer);
    tell("lemon", least, peer.sum, peer.reached);
}
