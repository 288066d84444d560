"""The same bytes for every number of workers, chunk size, number of open buckets and width.

Threads are started for rounds of many thousand places alone. So beside graphs of all families there are crowds, whose rounds are
so large that all workers run, and whose places lead to few vertices, so that they meet at the same words.
"""
import random

import families
import oracle
import program
import texts

GRAPHS, CROWDS, SEED = 40, 12, 5
SIZES = [200, 1000, 3000]
PLACES = [40_000, 150_000, 200_000]     # of a crowd
WORKERS, CHUNKS, OPEN = [1, 2, 7, 64], [1, 65536], [1, 128]
WIDTHS = [1, 2, 3, 7, 10, 32, 100, 1000, 65536, 10**6, 2**32 - 1]


def all_settings():
    """The options that change no byte, each with each other one."""
    return [[b"--workers", b"%d" % workers, b"--chunk", b"%d" % chunk, b"--open", b"%d" % open_buckets]
            for workers in WORKERS for chunk in CHUNKS for open_buckets in OPEN]


def random_pairs(rng, task):
    """The number of vertices and the pairs of a graph of some family."""
    n = rng.choice(SIZES)
    family = rng.choice(families.SET_FAMILIES if task == b"cover" else families.FAMILIES)
    return n, families.spiced(rng, family(rng, n), n)


def layered_pairs(rng, places, width):
    """A vertex before layers of vertices, each in pairs with most of the layer behind it."""
    layers, share = max(2, places // width // width + 1), rng.choice([0.5, 0.9, 1])
    pairs = [(0, v) for v in range(1, width + 1)]
    for first in range(1, (layers - 1) * width, width):
        behind = range(first + width, first + 2 * width)
        pairs += [(u, v) for u in range(first, first + width) for v in behind if rng.random() < share]
    return layers * width + 1, pairs


def sets_pairs(rng, places, width):
    """Sets over few elements."""
    sets = places // (width // 2)
    return sets + width, [(s, sets + e) for s in range(sets) for e in rng.sample(range(width), rng.randrange(0, width))]


def leaves_pairs(rng, places, width):
    """Few vertices that are all in pairs, and many that are in three pairs each with some of those."""
    leaves = places // 6
    return leaves + width, families.dense(rng, width) + [(width + leaf, rng.randrange(0, width)) for leaf in range(leaves) for _ in range(3)]


CROWDED = {b"cover": sets_pairs, b"kcore": leaves_pairs, b"wbfs": layered_pairs, b"delta": layered_pairs}


def crowded_pairs(rng, task):
    """The number of vertices and the pairs of a crowd."""
    return CROWDED[task](rng, rng.choice(PLACES), rng.choice([50, 250, 500]))


def random_list(rng, n):
    """A list of one source, mostly vertex 0, or of many."""
    many = rng.choices(range(n), k=rng.choice([2, 9, 500]))
    return b",".join(b"%d" % source for source in rng.choice([[0], [0], many[:1], many]))


def random_task(rng, make_pairs):
    """A graph, the words of a task that it is suited to, and the widths that change no byte."""
    task = rng.choice([b"kcore", b"cover", b"wbfs", b"delta"])
    n, pairs = make_pairs(rng, task)
    rows = families.rows_of(rng, pairs, n, task == b"kcore" or task != b"cover" and rng.random() < 0.5)
    named = [b"--source", random_list(rng, n)] if task in (b"wbfs", b"delta") else []
    return rows, [task, b"g", *named], [[b"--delta", b"%d" % width] for width in WIDTHS] if task == b"delta" else [[]]


def compare_settings(tally, folder, what, rng, make_pairs):
    """Compares the answers on a graph with some of the settings and widths."""
    rows, words, widths = random_task(rng, make_pairs)
    graph = texts.plain(texts.graph_tokens(rows, True))
    program.write(folder, "g", graph)
    wanted = oracle.answer(words + widths[0], {b"g": graph})
    for settings in rng.sample(all_settings(), 8):
        asked = words + settings + rng.choice(widths)
        tally.compare(f"{what} of seed {SEED}, words {asked}", program.run(asked, b"", folder), wanted)


def test(tally, folder):
    """Graphs of all families, and crowds."""
    rng = random.Random(SEED)
    for number in range(GRAPHS):
        compare_settings(tally, folder, f"graph {number}", rng, random_pairs)
    for number in range(CROWDS):
        compare_settings(tally, folder, f"crowd {number}", rng, crowded_pairs)
