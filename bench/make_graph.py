#!/usr/bin/env python3
"""Makes a weighted graph for measurements. The same words give the same bytes.

    bench/make_graph.py pairs N PAIRS [SEED] > FILE   the graph of `demo`: random pairs, edges both ways, weights 1 to 100
    bench/make_graph.py power N PAIRS [SEED] > FILE   pairs of a power law, edges both ways, none twice, weights 1 to 100
    bench/make_graph.py grid SIDE [SEED] > FILE       a square grid, edges both ways, weights 1 to 100
    bench/make_graph.py chain N > FILE                0 and 1, 1 and 2 and so on, edges both ways, weights 1
    bench/make_graph.py star N [SEED] > FILE          0 and each other vertex, edges both ways, weights 1 to 100
    bench/make_graph.py uniform N M [SEED] > FILE     M edges between random vertices, weights 1 to 100
    bench/make_graph.py sets N M SIZE [SEED] > FILE   N sets of up to 2 * SIZE of M elements, which are the vertices behind them
"""
import os
import random
import sys

sys.dont_write_bytecode = True
sys.path.insert(0, os.path.join(os.path.dirname(os.path.dirname(os.path.abspath(__file__))), "tests"))
import oracle


def random_weight(rng):
    """A weight from 1 to 100."""
    return 1 + int(rng.random() * 100)


def rows_both_ways(n, edges):
    """The rows of edges (u, v, weight) that stand both ways."""
    rows = [[] for _ in range(n)]
    for u, v, weight in edges:
        rows[u].append((v, weight))
        rows[v].append((u, weight))
    return rows


def pairs(n, count, seed=7):
    """The graph of `demo`."""
    return oracle.generate(n, count, seed)


def power(n, count, seed=1):
    """Pairs of an early vertex and any vertex, so that few vertices are in many of them."""
    rng, names, seen = random.Random(seed), list(range(n)), set()
    rng.shuffle(names)
    while len(seen) < count:
        u, v = names[int(n * rng.random() ** 4)], names[int(n * rng.random() ** 1.5)]
        if u != v:
            seen.add((min(u, v), max(u, v)))
    return rows_both_ways(n, [(u, v, random_weight(rng)) for u, v in sorted(seen)])


def grid(side, seed=1):
    """A square."""
    rng, edges = random.Random(seed), []
    for u in range(side * side):
        near = ([u + 1] if (u + 1) % side else []) + ([u + side] if u + side < side * side else [])
        edges += [(u, v, random_weight(rng)) for v in near]
    return rows_both_ways(side * side, edges)


def chain(n):
    """One vertex after another."""
    return rows_both_ways(n, [(u, u + 1, 1) for u in range(n - 1)])


def star(n, seed=1):
    """A vertex with all others."""
    rng = random.Random(seed)
    return rows_both_ways(n, [(0, v, random_weight(rng)) for v in range(1, n)])


def uniform(n, m, seed=1):
    """Edges one way."""
    rng = random.Random(seed)
    rows = [[] for _ in range(n)]
    for _ in range(m):
        rows[int(rng.random() * n)].append((int(rng.random() * n), random_weight(rng)))
    return rows


def sets(n, m, size, seed=1):
    """Sets of vertices, for covers."""
    rng = random.Random(seed)
    rows = [[(n + int(rng.random() * m), 1) for _ in range(int(rng.random() * 2 * size))] for _ in range(n)]
    return rows + [[] for _ in range(m)]


FAMILIES = {"pairs": pairs, "power": power, "grid": grid, "chain": chain, "star": star, "uniform": uniform, "sets": sets}


def write(out, rows):
    """Writes the rows as a weighted graph, a token a line."""
    out.write(f"WeightedAdjacencyGraph\n{len(rows)}\n{sum(map(len, rows))}\n")
    offset = 0
    for row in rows:
        out.write(f"{offset}\n")
        offset += len(row)
    for part in (0, 1):
        for row in rows:
            out.write("".join(f"{place[part]}\n" for place in row))


def main(words):
    """Writes the graph that the words name."""
    if not words or words[0] not in FAMILIES:
        sys.exit(__doc__)
    write(sys.stdout, FAMILIES[words[0]](*map(int, words[1:])))


if __name__ == "__main__":
    main(sys.argv[1:])
