"""Right witnesses of a graph that aren't those that the program writes: another parent, another cover.

Rows are lists of (target, weight).
"""
import oracle


def tree_of(rows, sources):
    """Distances from those sources that are vertices, with least hops and some parent that bears them out."""
    lines = oracle.distances_lines(rows, [source for source in sources if source < len(rows)])
    for u, row in enumerate(rows):
        for v, w in row:
            if lines[u][0] is not None and lines[u][0] + w == lines[v][0] and lines[u][1] + 1 == lines[v][1]:
                lines[v][2] = u
    return lines


def cover_of(rng, rows):
    """Every set is chosen, and each element is covered by some set that holds it."""
    lines = [[0, None] for _ in rows]
    for s, row in enumerate(rows):
        for e, _ in row:
            if lines[e][1] is None or rng.random() < 0.3:
                lines[e][1] = s
    return lines
