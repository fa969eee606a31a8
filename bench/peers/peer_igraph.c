/* igraph, from 0.10 on: a directed graph, distances by Dijkstra. */

#include "peer.h"

#include <igraph/igraph.h>
#include <math.h>

typedef struct {
    igraph_t graph;
    igraph_vector_t weights;
    igraph_integer_t source;
    igraph_matrix_t distances;
} Peer;

static void run(void *given)
{
    Peer *peer = (Peer *)given;
    igraph_matrix_destroy(&peer->distances);
    igraph_matrix_init(&peer->distances, 0, 0);
    /* On an error igraph ends the program. */
    igraph_distances_dijkstra(&peer->graph, &peer->distances, igraph_vss_1(peer->source),
                              igraph_vss_all(), &peer->weights, IGRAPH_OUT);
}

int main(int count, char **given)
{
    unsigned rounds = rounds_asked(count, given);
    Sheet sheet = read_sheet(given[2]);
    Peer peer;
    igraph_vector_int_t ends;
    igraph_vector_int_init(&ends, 2 * (igraph_integer_t)sheet.h);
    igraph_vector_init(&peer.weights, sheet.h);
    for (uint32_t v = 0; v < sheet.n; v++)
        for (uint32_t row = sheet.starts[v]; row < sheet.starts[v + 1]; row++) {
            VECTOR(ends)[2 * (size_t)row] = v;
            VECTOR(ends)[2 * (size_t)row + 1] = sheet.targets[row];
            VECTOR(peer.weights)[row] = sheet.weights[row];
        }
    igraph_create(&peer.graph, &ends, sheet.n, IGRAPH_DIRECTED);
    igraph_matrix_init(&peer.distances, 0, 0);
    peer.source = sheet.source;
    uint64_t least = least_time(run, &peer, rounds), sum = 0, reached = 0;
    for (uint32_t v = 0; v < sheet.n; v++) {
        /* All sums stay below 2^53, so the numbers are exact. */
        double distance = MATRIX(peer.distances, 0, v);
        if (isfinite(distance)) {
            sum += (uint64_t)distance;
            reached++;
        }
    }
    tell("igraph", least, sum, reached);
    return 0;
}
