"""SciPy: a sparse row matrix, distances by scipy.sparse.csgraph.dijkstra.

Usage: peer_scipy.py ROUNDS SHEET
Prints the name, the least nanoseconds, and the sum of the reached distances
with the number reached behind a colon.

An entry of weight 0 that is stored in a sparse matrix is an edge here: only
dense matrices take 0 for no edge. The matrix is therefore made from its three
arrays, which drops no entry.
"""

import sys
import time

import numpy
from scipy.sparse import csr_matrix
from scipy.sparse.csgraph import dijkstra

ROUND_NANOSECONDS = 5_000_000


def read_sheet(path):
    """The matrix and the source of a sheet."""
    numbers = numpy.fromfile(path, dtype="<u4").astype(numpy.int64)
    n, h, first, second, source = (int(number) for number in numbers[:5])
    rows = 5 + n + 1
    if [first, second, len(numbers)] != [20, 4 * rows, rows + 2 * h]:
        sys.exit("an offset or the length is wrong")
    starts = numbers[5:rows].astype(numpy.int32)
    targets = numbers[rows::2].astype(numpy.int32)
    weights = numbers[rows + 1 :: 2].astype(numpy.float64)
    matrix = csr_matrix((weights, targets, starts), shape=(n, n))
    return matrix, 0 if source == 2**32 - 1 else source


def least_time(run, rounds):
    """The least time of one run over so many rounds."""
    start = time.thread_time_ns()
    run()
    once = max(1, time.thread_time_ns() - start)
    times = min(10_000, max(1, ROUND_NANOSECONDS // once))
    least = None
    for _ in range(rounds):
        start = time.thread_time_ns()
        for _ in range(times):
            run()
        one = (time.thread_time_ns() - start) // times
        least = one if least is None else min(least, one)
    return least


def main():
    rounds = int(sys.argv[1])
    matrix, source = read_sheet(sys.argv[2])

    def run():
        return dijkstra(matrix, directed=True, indices=source)

    least = least_time(run, rounds)
    distances = run()
    # All sums stay below 2^53, so the numbers are exact.
    reached = distances[numpy.isfinite(distances)].astype(numpy.uint64)
    print("scipy", least, f"{int(reached.sum())}:{len(reached)}")


main()
