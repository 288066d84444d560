"""Random graphs of many families, as rows of (target, weight).

A family gives pairs of vertices; `rows_of` puts them into rows, one way or both ways. Long thin families make frontiers of few
places, which are pushed, and dense ones frontiers of many, which are pulled.
"""
import oracle

# how weights are drawn: each a function of the generator
WEIGHTS = [
    lambda rng: 0,
    lambda rng: 1,
    lambda rng: rng.randrange(0, 2),
    lambda rng: rng.randrange(0, 10),
    lambda rng: rng.randrange(1, 101),
    lambda rng: rng.choice([0, oracle.MAX_W]),
    lambda rng: rng.choice([1, 127, 128, 129, 256, 100_000]),
    lambda rng: 2 ** rng.randrange(0, 32),
    lambda rng: oracle.MAX_W - rng.randrange(0, 3),
]


def sparse(rng, n):
    """As many pairs as vertices, or up to three times as many."""
    return [(rng.randrange(0, n), rng.randrange(0, n)) for _ in range(rng.randrange(0, 3 * n + 1))]


def dense(rng, n):
    """Every pair of some vertices, with a few left out, and the other vertices without any."""
    size = rng.randrange(1, min(n, 20) + 1)
    return [(u, v) for u in range(size) for v in range(u) if rng.random() < 0.9]


def chain(rng, n):
    """One vertex after another."""
    return [(u, u + 1) for u in range(n - 1)]


def ring(rng, n):
    """One vertex after another, and the first after the last."""
    return [(u, (u + 1) % n) for u in range(n)]


def star(rng, n):
    """A vertex with all others."""
    center = rng.randrange(0, n)
    return [(center, v) for v in range(n) if v != center]


def grid(rng, n):
    """A square, with the vertices below and on the right."""
    side, pairs = max(1, int(n ** 0.5)), []
    for u in range(side * side):
        pairs += [(u, u + 1)] if (u + 1) % side else []
        pairs += [(u, u + side)] if u + side < side * side else []
    return pairs


def tree(rng, n):
    """Each vertex with one of lesser number."""
    return [(rng.randrange(max(0, v - rng.choice([1, 3, n])), v), v) for v in range(1, n)]


def ladder(rng, n):
    """A chain with shorter and longer ways over one, two or five vertices."""
    return [(u, u + step) for u in range(n) for step in (1, 2, 5) if u + step < n and (step == 1 or rng.random() < 0.5)]


def preferred(rng, n):
    """Each vertex with some that are in many pairs already."""
    ends = [0]
    for v in range(1, n):
        for _ in range(rng.randrange(1, 4)):
            ends += [rng.choice(ends), v]
    return list(zip(ends[1::2], ends[2::2]))


def clusters(rng, n):
    """Small dense parts, joined by single pairs."""
    size, pairs = rng.randrange(2, 7), []
    for first in range(0, n - size + 1, size):
        pairs += [(first + a, first + b) for a in range(size) for b in range(a) if rng.random() < 0.9]
        if first:
            pairs.append((first, rng.randrange(0, first)))
    return pairs


FAMILIES = [sparse, sparse, dense, chain, ring, star, grid, tree, ladder, preferred, clusters]


def bipartite(rng, n):
    """Sets whose sizes are powers of two or nearly so, over elements that are often the same."""
    sets = rng.randrange(1, n + 1)
    elements = range(n) if rng.random() < 0.3 else range(min(sets, n - 1), n)
    pairs = []
    for s in range(sets):
        size = min(len(elements), max(0, 2 ** rng.randrange(0, 6) + rng.randrange(-1, 2)))
        first = rng.randrange(0, len(elements))
        near = [elements[(first + i) % len(elements)] for i in range(size)]
        pairs += [(s, e) for e in (near if rng.random() < 0.5 else rng.sample(elements, size))]
    return pairs


def halved(rng, n):
    """Sets that each hold half of what is left, and two that hold every second element: greedy covers take many rounds."""
    elements, pairs, s = list(range(n)), [], 0
    pairs += [(n - 1, e) for e in elements[::2]] + [(n - 2, e) for e in elements[1::2]] if n > 1 else []
    while elements and s < n:
        size = (len(elements) + 1) // 2
        pairs += [(s, e) for e in elements[:size]]
        elements, s = elements[size:], s + 1
    return pairs


SET_FAMILIES = [bipartite, bipartite, bipartite, halved, sparse, dense, preferred, clusters]


def spiced(rng, pairs, n):
    """The pairs with some more than once, some of a vertex with itself, and with other numbers for the vertices."""
    pairs = list(pairs)
    for _ in range(rng.choice([0, 0, 1, 2, n])):
        pairs.append(rng.choice(pairs) if pairs and rng.random() < 0.6 else (rng.randrange(0, n),) * 2)
    if rng.random() < 0.4:
        names = rng.sample(range(n), n)
        pairs = [(names[u], names[v]) for u, v in pairs]
    return pairs


def rows_of(rng, pairs, n, both_ways):
    """The rows in which the pairs stand, in some order."""
    weight = rng.choice(WEIGHTS)
    rows = [[] for _ in range(n)]
    for u, v in pairs:
        rows[u].append((v, weight(rng)))
        if both_ways:
            rows[v].append((u, weight(rng)))
    if rng.random() < 0.5:
        for row in rows:
            rng.shuffle(row)
    return rows


def random_size(rng):
    """Mostly few vertices, sometimes some hundreds."""
    return rng.choice([1, 2, 3, 4, 5, 6, 8, 12, 20, 20, 40, 70, 150, 300])


def random_rows(rng):
    """A graph for walks, one way or both ways."""
    n = random_size(rng)
    return rows_of(rng, spiced(rng, rng.choice(FAMILIES)(rng, n), n), n, rng.random() < 0.5)


def symmetric_rows(rng):
    """A symmetric graph, or one that isn't by a place or two."""
    n = random_size(rng)
    rows = rows_of(rng, spiced(rng, rng.choice(FAMILIES)(rng, n), n), n, True)
    for _ in range(rng.choice([0, 0, 0, 0, 1, 2])):
        row = rng.choice(rows)
        if row and rng.random() < 0.7:
            at = rng.randrange(0, len(row))
            row[at:at + 1] = rng.choice([[], [row[at], row[at]], [(rng.randrange(0, n), row[at][1])]])
        else:
            row.append((rng.randrange(0, n), 1))
    return rows


def set_rows(rng):
    """A graph whose rows are sets to be chosen from."""
    n = random_size(rng)
    return rows_of(rng, spiced(rng, rng.choice(SET_FAMILIES)(rng, n), n), n, rng.random() < 0.2)
