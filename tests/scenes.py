"""Random scenes: a graph text, a witness text of either version and sources, aimed at one part of the program each.

A graph is a list of rows of (target, weight); a witness is a word and lines of numbers, None for a dash; sources are an increasing
list of numbers.
"""
from collections import namedtuple

import families
import oracle
import texts
import witnesses

# word is that of the witness without its version; is_named says whether the witness names sources of its own
Scene = namedtuple("Scene", "graph witness sources word is_named")

GREATEST = 2**64 - 2        # the greatest number of a column
CUT = 2**32                 # what a number loses that is kept in 32 bits
READ_BLOCK, WRITE_BLOCK = 65536, 65536   # bytes that the program moves at a time


def random_graph(rng, n, places, greatest):
    """Places between random vertices, with weights up to the greatest."""
    rows = [[] for _ in range(n)]
    for _ in range(places if n else 0):
        rows[rng.randrange(0, n)].append((rng.randrange(0, n), rng.randrange(0, greatest + 1)))
    return rows


def random_pairs(rng, n, pairs):
    """A symmetric graph: each pair stands in both rows."""
    pairs = [(rng.randrange(0, n), rng.randrange(0, n)) for _ in range(pairs)]
    return families.rows_of(rng, pairs, n, True)


def greatest_weight(rng):
    """The greatest weight of a graph."""
    return rng.choice([0, 1, 1, 9, 100, oracle.MAX_W])


def tampered(rng, lines):
    """The lines with one to three entries changed to what a wrong program might take for right."""
    lines = [list(line) for line in lines]
    for _ in range(rng.choice([1, 1, 1, 2, 3]) if lines else 0):
        line, at = rng.choice(lines), rng.randrange(0, len(lines[0]))
        old = line[at]
        line[at] = rng.choice([None, 0, 1, 2, len(lines), rng.randrange(0, len(lines)), rng.choice(lines)[at], GREATEST]
                              + ([] if old is None else [old + 1, max(old, 1) - 1, (old + CUT) % GREATEST]))
    return lines


def random_sources(rng, n):
    """Some of the vertices, or numbers below n."""
    return sorted(rng.sample(range(n), min(n, rng.choice([1, 1, 1, 1, 1, 2, 2, 3, 5, 40]))))


def other_sources(rng, sources):
    """Sources that are others, that are none or that aren't in order."""
    at = rng.randrange(0, len(sources))
    before, source, behind = sources[:at], sources[at], sources[at + 1:]
    return rng.choice([before + behind, before + behind, before + [source, source] + behind, before + [source + 1] + behind, sources[::-1],
                       sources + [sources[-1] + rng.choice([1, 2, CUT])], behind + before, [0], [0] + sources, sources[:1]])


def other_places(rng, places):
    """Another number of places than there are."""
    return rng.choice([places + 1, max(places, 1) - 1, 0, places // 2, places + CUT, oracle.MAX_M])


def witness_of(rng, word, lines, places, sources):
    """The tokens of a witness of either version, which seldom names other sources or places, and whether it names sources."""
    if rng.random() < 0.4:
        return texts.witness_tokens(word, lines), False
    places = other_places(rng, places) if rng.random() < 0.06 else places
    named = other_sources(rng, sources) if sources and rng.random() < 0.1 else sources
    return texts.witness_tokens(word, lines, places, named), word == "Distances"


def places_of(rows):
    """The number of places of a graph."""
    return sum(map(len, rows))


def no_dashes(lines):
    """The lines with a number in place of each dash."""
    return [[3 if entry is None else entry for entry in line] for line in lines]


def right_witness(rng, rows, sources):
    """A word and lines that a checker takes."""
    word = rng.choice(["Cores", "Distances", "Distances", "Cover"])
    if word == "Cores":
        return word, oracle.cores_lines(rows)
    if word == "Distances":
        return word, witnesses.tree_of(rows, sources)
    return word, witnesses.cover_of(rng, rows)


def any_texts(rng):
    """A graph and a witness, each of which may be damaged, tampered with or of another size."""
    weighted = rng.random() < 0.6
    n = rng.choice([0, 1, 1, 2, 3, 4, 5, 8, 20])
    rows = random_graph(rng, n, rng.randrange(0, 3 * n + 1), greatest_weight(rng) if weighted else 1)
    if not weighted:
        rows = [[(target, 1) for target, _ in row] for row in rows]
    sources = rng.choice([[0], [0], [0], [n], random_sources(rng, n + 2), random_sources(rng, n + 2)])
    tokens = texts.graph_tokens(rows, weighted)
    if rng.random() < 0.5:
        tokens = texts.damaged(rng, tokens)
    word, lines = right_witness(rng, rows, sources)
    if rng.random() < 0.5:
        lines = tampered(rng, lines)
    if rng.random() < 0.15:
        lines, sources = rng.choice([lines[1:], lines[:-1], lines + lines[:1]]), rng.choice([sources, sources, [n]])
    lines = no_dashes(lines) if word == "Cores" and rng.random() < 0.9 else lines
    witness, is_named = witness_of(rng, word, lines, places_of(rows), sources)
    if rng.random() < 0.15:
        witness = texts.damaged(rng, witness)
    return Scene(texts.spread(rng, tokens), texts.spread(rng, witness), sources, word, is_named)


def scene(rng, rows, word, lines, sources, weighted=True):
    """A graph and a witness as they are, spread over lines."""
    graph, (witness, is_named) = texts.graph_tokens(rows, weighted), witness_of(rng, word, lines, places_of(rows), sources)
    return Scene(texts.spread(rng, graph), texts.spread(rng, witness), sources, word, is_named)


def solved(rng):
    """A graph of some family and the columns that are defined for it, with entries changed or not."""
    weighted, word = rng.random() < 0.7, rng.choice(["Cores", "Distances", "Distances", "Cover"])
    rows = {"Cores": families.symmetric_rows, "Distances": families.random_rows, "Cover": families.set_rows}[word](rng)
    sources = random_sources(rng, len(rows))
    weighed = rows if weighted else [[(target, 1) for target, _ in row] for row in rows]
    lines = oracle.columns(word.encode(), weighed, sources)
    if rng.random() < 0.6:
        lines = no_dashes(tampered(rng, lines)) if word == "Cores" and rng.random() < 0.8 else tampered(rng, lines)
    return scene(rng, rows, word, lines, sources, weighted)


def tampered_cores(rng):
    """Cores of a symmetric graph, and levels that are no rounds."""
    n = rng.randrange(2, 10)
    rows = random_pairs(rng, n, rng.randrange(n // 2, 3 * n))
    lines = oracle.cores_lines(rows)
    for _ in range(rng.choice([0, 1, 1, 2])):
        line, other = rng.choice(lines), rng.choice(lines)
        line[1] = rng.choice([other[1], other[1], 0, line[1] + 1, line[1] + CUT, GREATEST])
    if rng.random() < 0.5:
        line = rng.choice(lines)
        line[0] = rng.choice([line[0] + 1, max(line[0], 1) - 1, line[0] + CUT, 0])
    if rng.random() < 0.2:
        lines = [[core, 0] for core, _ in lines]
    return scene(rng, rows, "Cores", lines, [rng.choice([0, 0, n - 1, n, 2**32 - 1])])


def tampered_tree(rng):
    """The distances of a graph in which most vertices are reached, with entries changed or with another parent."""
    n = rng.randrange(2, 9)
    rows = random_graph(rng, n, rng.randrange(n, 4 * n), greatest_weight(rng))
    sources = random_sources(rng, n)
    source, lines = rng.choice(sources), witnesses.tree_of(rows, sources)
    if rng.random() < 0.6:
        lines = tampered(rng, lines)
    elif rng.random() < 0.3:
        lines[source][rng.choice([1, 2])] = rng.choice([1, source])
        for target, _ in rows[source][:1]:
            lines[target][0] = None
    elif rng.random() < 0.8:
        line = rng.choice(lines)
        line[2] = rng.choice([n, n + 1, (line[2] or 0) + CUT, *(u for u in range(n) if lines[u][1] == (line[1] or 0) - 1)])
    return scene(rng, rows, "Distances", lines, sources)


def sources_met(rng):
    """The distances from all sources but one, or from one of them alone."""
    n = rng.randrange(2, 9)
    rows = random_graph(rng, n, rng.randrange(0, 3 * n), greatest_weight(rng))
    sources = sorted(rng.sample(range(n), rng.randrange(2, n + 1)))
    left_out = rng.choice(sources)
    others = [left_out] if rng.random() < 0.3 else [source for source in sources if source != left_out]
    lines = witnesses.tree_of(rows, others)
    return scene(rng, rows, "Distances", lines, rng.choice([sources, sources, others]))


def tampered_cover(rng):
    """A cover with a set that was not chosen or is no vertex, or with entries changed."""
    n = rng.randrange(2, 9)
    rows = random_graph(rng, n, rng.randrange(n // 2, 3 * n), 1)
    lines = witnesses.cover_of(rng, rows)
    if rng.random() < 0.5:
        lines = tampered(rng, lines)
    else:
        line, s = rng.choice(lines), rng.randrange(0, n)
        line[1] = rng.choice([s, s, s, n, (line[1] or 0) + CUT])
        lines[s][0] = rng.choice([None, None, 0])
    return scene(rng, rows, "Cover", lines, [rng.choice([0, 0, n, 2**32 - 1])])


def columns_of_unreached(rng):
    """Hops or a parent where there is no distance."""
    n = rng.randrange(2, 8)
    rows = random_graph(rng, n, rng.randrange(0, n + 1), greatest_weight(rng))
    sources = random_sources(rng, n)
    lines = witnesses.tree_of(rows, sources)
    for line in lines:
        if line[0] is None and rng.random() < 0.4:
            line[rng.choice([1, 2])] = rng.choice([0, 1, sources[0], n, GREATEST])
    return scene(rng, rows, "Distances", lines, sources)


def wrapped(number):
    """A sum as a program of 64 bits keeps it, None for the number that it keeps in place of a dash."""
    number %= 2**64
    return None if number == 2**64 - 1 else number


def sums_at_the_end(rng):
    """Two unreached vertices, the lesser with the greater as parent: its columns follow only if sums wrap or end at 2^64."""
    n = rng.randrange(1, 4)
    rows = random_graph(rng, n, rng.randrange(0, 2 * n), greatest_weight(rng)) + [[], []]
    sources, child, parent = random_sources(rng, n), n, n + 1
    lines = witnesses.tree_of(rows, sources)
    weight = rng.choice([0, 1, 2, 3, oracle.MAX_W, rng.randrange(0, oracle.MAX_W)])
    rows[parent].append((child, weight))
    if rng.random() < 0.6:
        rows[child].append((rng.randrange(0, n + 2), rng.choice([0, 1, 2, oracle.MAX_W])))
    dist = 7 if rng.random() < 0.3 else 2**64 - 1 - rng.choice([0, 0, 1, 1, 2, 3, weight, rng.randrange(0, oracle.MAX_W)])
    hops = rng.choice([0, 1, 2**32 - 1, 2**64 - 2, 2**64 - 1])
    lines[parent] = [wrapped(dist), wrapped(hops), rng.choice([None, sources[0], child, parent])]
    near = rng.choice([0, 0, 0, 1, -1])
    child_dist = rng.choice([wrapped(dist + weight + near), wrapped(dist + weight + near), GREATEST - rng.randrange(0, 3)])
    lines[child] = [child_dist, wrapped(hops + 1), rng.choice([parent, parent, parent, parent + CUT])]
    return scene(rng, rows, "Distances", lines, sources)


def ring_of_zeros(rng):
    """Vertices that no walk reaches, each with the one before it in a ring of weight 0 as its parent."""
    n, k = rng.randrange(1, 4), rng.randrange(1, 5)
    rows = random_graph(rng, n, rng.randrange(0, 2 * n), greatest_weight(rng)) + [[] for _ in range(k)]
    sources = random_sources(rng, n)
    lines = witnesses.tree_of(rows, sources)
    dist = rng.choice([0, 1, 7, GREATEST])
    steps = rng.choice([lambda i: 1, lambda i: i + 1, lambda i: k - i, lambda i: 2 * i, lambda i: None, lambda i: GREATEST - k + i])
    for i in range(k):
        rows[n + i].append((n + (i + 1) % k, 0))
        lines[n + i] = [dist, steps(i), n + (i - 1) % k]
    return scene(rng, rows, "Distances", lines, sources)


def put_at_bound(rng, tokens, bounds):
    """Puts one of the tokens just at its bound or above it; bounds are pairs of an index and a bound."""
    at, bound = rng.choice(bounds)
    tokens[at] = bound + rng.choice([0, 1, 1, CUT, 2**64])


def bounds_of_tree(witness, sources):
    """The indices of some tokens of a witness of distances, each with its bound."""
    head, bounds = 2, [(1, oracle.MAX_N), (len(witness) - 1, GREATEST)]
    if witness[0] != "Distances":
        head = 4 + len(sources)
        bounds += [(2, oracle.MAX_M), (2, oracle.MAX_M), (3, oracle.MAX_SOURCES), (head - 1, oracle.MAX_SOURCE)]
    return bounds + [(head + 3 * sources[0], GREATEST)]


def numbers_at_bounds(rng):
    """A number of the graph file or of the witness file at its bound or above it."""
    n = rng.randrange(1, 5)
    rows = random_graph(rng, n, rng.randrange(1, 2 * n + 1), greatest_weight(rng))
    places, sources = places_of(rows), random_sources(rng, n)
    graph, lines = texts.graph_tokens(rows, True), witnesses.tree_of(rows, sources)
    witness = texts.witness_tokens("Distances", lines, *rng.choice([(), (places, sources)]))
    if rng.random() < 0.6:
        offset = rng.randrange(3, 3 + n)
        put_at_bound(rng, graph, [(1, oracle.MAX_N), (2, oracle.MAX_M), (offset, places), (3 + n, n - 1), (len(graph) - 1, oracle.MAX_W)])
    else:
        put_at_bound(rng, witness, bounds_of_tree(witness, sources))
    return Scene(texts.spread(rng, graph), texts.spread(rng, witness), sources, "Distances", witness[0] != "Distances")


def many_sources(rng):
    """As many sources as there may be, or one fewer or more, of a graph with few places."""
    n = oracle.MAX_SOURCES + 4
    rows = random_graph(rng, n, rng.choice([0, 10, 100]), greatest_weight(rng))
    sources = sorted(rng.sample(range(n), oracle.MAX_SOURCES + rng.choice([-1, 0, 0, 1, 1])))
    named = sources if rng.random() < 0.6 else sources[:rng.choice([1, 2])]
    lines = witnesses.tree_of(rows, named)
    graph, is_named = texts.graph_tokens(rows, True), rng.random() < 0.7
    witness = texts.witness_tokens("Distances", lines, *([places_of(rows), named] if is_named else []))
    return Scene(texts.plain(graph), texts.plain(witness), sources, "Distances", is_named)


def padded(rng):
    """A graph behind so many white bytes that a block of reading ends within it."""
    made = any_texts(rng)
    white = rng.choice(texts.WHITE)[:1] * (READ_BLOCK - rng.randrange(0, len(made.graph) + 2))
    return made._replace(graph=white + made.graph)


def long_answer(rng):
    """So many vertices that a block of writing ends within the answer, or just behind it."""
    n = WRITE_BLOCK // 2 + rng.randrange(-3, 4)
    rows, sources = [[] for _ in range(n)], random_sources(rng, n)
    for _ in range(rng.choice([0, 1, 2, 30])):
        rows[rng.choice([sources[0], rng.randrange(0, n)])].append((rng.randrange(0, n), rng.randrange(0, 10**rng.randrange(0, 9))))
    return scene(rng, rows, "Distances", witnesses.tree_of(rows, sources), sources)


# what may stand in place of a number
NUMBERS = ["-"] * 6 + ["-0"] * 2 + ["-00", "-7", "--7", "-7-", "+0", "00", "1.0", "x", "1x", "0x0", "\x0b0", "\x000", "\xff", "\xb9"]


def odd_header(rng, header, word):
    """A word in place of a header."""
    versions = [word + version for version in ("", "2", "1", "3", "02", "22", "22")]
    return rng.choice(versions + ["AdjacencyGraph", header.lower(), header + "s", header[1:]])


def odd_token(rng):
    """A header or a number of another form, in the graph file or in the witness file."""
    n = rng.randrange(1, 5)
    rows = random_graph(rng, n, rng.randrange(1, 2 * n + 1), greatest_weight(rng))
    sources = random_sources(rng, n)
    word, lines = right_witness(rng, rows, sources)
    graph, (witness, is_named) = texts.graph_tokens(rows, rng.random() < 0.7), witness_of(rng, word, lines, places_of(rows), sources)
    tokens = rng.choice([graph, graph, witness, witness])
    at = rng.choice([0, 1, 2, 3, 4, rng.randrange(0, len(tokens)), len(tokens) - 1, len(tokens) - 1]) % len(tokens)
    tokens[at] = rng.choice(NUMBERS) if at else odd_header(rng, tokens[0], word)
    return Scene(texts.spread(rng, graph), texts.spread(rng, witness), sources, word, is_named)


# how often a scene is taken, and the scene
SCENES = [
    (14, solved),
    (8, any_texts),
    (3, tampered_cores),
    (4, tampered_tree),
    (2, sources_met),
    (2, tampered_cover),
    (1, columns_of_unreached),
    (4, sums_at_the_end),
    (1, ring_of_zeros),
    (3, numbers_at_bounds),
    (4, odd_token),
    (0.5, many_sources),
    (0.3, padded),
    (0.3, long_answer),
]


def random_scene(rng):
    """One of the scenes."""
    weights, makers = zip(*SCENES)
    return rng.choices(makers, weights)[0](rng)
