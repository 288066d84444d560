"""Files and demos at the limits, which take minutes and up to five gigabytes: run by hand, as tests/end_to_end largest."""
import hashlib
import os

import program

MAX_BYTES = 2**32
MAX_N, MAX_M, MAX_W, MAX_PAIRS, MAX_SOURCES = 2**24, 2**27, 2**32 - 1, 2**26, 1024
BLOCK = 2**16       # lines that are made at a time
# words, standard output
DEMOS = [
    (f"demo kcore --n 1 --pairs {MAX_PAIRS} --seed 0", b"kcore n 1 m 134217728 max 134217728 top 1\n"),
    (f"demo cover --n 1 --pairs {MAX_PAIRS} --seed 0", b"cover n 1 m 134217728 chosen 1 covered 1\n"),
    (f"demo kcore --n {MAX_N} --pairs 0 --seed 0", b"kcore n 16777216 m 0 max 0 top 16777216\n"),
    (f"demo cover --n {MAX_N} --pairs 0 --seed 0", b"cover n 16777216 m 0 chosen 0 covered 0\n"),
    (f"demo delta --n {MAX_N} --pairs 0 --seed 0 --delta 4294967295", b"delta n 16777216 m 0 reached 1 max 0\n"),
]
# what is added to the limit to give the length of a file of zeros, and the fault
LENGTHS = [
    (0, b"Header at token 0, byte 0\n"),
    (1, b"TooLong at token 0, byte 4294967296\n"),
    (2**20, b"TooLong at token 0, byte 4294967296\n"),
]


def test_lengths(tally, folder):
    """Files without data on the disk, as a graph and as a witness."""
    program.write(folder, "g", b"AdjacencyGraph 0 0")
    for more, fault in LENGTHS:
        program.write(folder, "long", b"")
        os.truncate(os.path.join(folder, "long"), MAX_BYTES + more)
        tally.compare(f"a graph of 2^32 + {more} bytes", program.run([b"kcore", b"long"], b"", folder), (3, b"", b"graph: " + fault))
        got = program.run([b"check", b"g", b"long"], b"", folder)
        tally.compare(f"a witness of 2^32 + {more} bytes", got, (3, b"", b"witness: " + fault))


def blocks(count, line):
    """The lines of all numbers below a count, in blocks."""
    for first in range(0, count, BLOCK):
        yield b"".join(map(line, range(first, min(count, first + BLOCK))))


def write_blocks(folder, name, head, *parts):
    """Writes a file of a head and blocks."""
    with open(os.path.join(folder, name), "wb") as file:
        file.write(head)
        for part in parts:
            for block in part:
                file.write(block)


def compare_long(tally, folder, words, head, lines):
    """Compares a long text with a head and blocks of lines, by their digests."""
    code, out, err = program.run(words.split(), b"", folder)
    wanted = hashlib.sha256(head)
    for block in lines:
        wanted.update(block)
    tally.compare(words, (code, hashlib.sha256(out).digest(), err), (0, wanted.digest(), b""))


def test_most_vertices(tally, folder):
    """As many vertices as there may be, without a place."""
    write_blocks(folder, "none", b"AdjacencyGraph %d 0\n" % MAX_N, blocks(MAX_N, lambda v: b"0\n"))
    compare_long(tally, folder, "kcore none", b"Cores2\n%d 0\n" % MAX_N, blocks(MAX_N, lambda v: b"0 0\n"))
    compare_long(tally, folder, "cover none", b"Cover2\n%d 0\n" % MAX_N, blocks(MAX_N, lambda v: b"- -\n"))
    compare_long(tally, folder, "wbfs none", b"Distances2\n%d 0\n1 0\n0 0 -\n" % MAX_N, blocks(MAX_N - 1, lambda v: b"- - -\n"))


def test_most_sources(tally, folder):
    """As many sources as there may be, of a chain of as many vertices as there may be: each 16,384th vertex, named in falling order."""
    apart = MAX_N // MAX_SOURCES
    sources = range(0, MAX_N, apart)
    words = "wbfs chain --source " + ",".join(map(str, reversed(sources)))
    head = b"Distances2\n%d %d\n%d %s\n" % (MAX_N, MAX_N - 1, MAX_SOURCES, b" ".join(b"%d" % source for source in sources))

    def lines():
        return blocks(MAX_N, lambda v: b"%d %d %d\n" % (v % apart * MAX_W, v % apart, v - 1) if v % apart else b"0 0 -\n")

    compare_long(tally, folder, words, head, lines())
    write_blocks(folder, "named", head, lines())
    tally.compare("check chain named", program.run([b"check", b"chain", b"named"], b"", folder), (0, b"yes\n", b""))
    compare_long(tally, folder, "upgrade chain named", head, lines())


def test_most_places(tally, folder):
    """As many places as there may be, all of one vertex with itself."""
    write_blocks(folder, "loops", b"AdjacencyGraph 1 %d 0\n" % MAX_M, blocks(MAX_M, lambda place: b"0\n"))
    texts = {"kcore loops": b"Cores2\n1 134217728\n134217728 0\n", "cover loops": b"Cover2\n1 134217728\n0 0\n",
             "wbfs loops": b"Distances2\n1 134217728\n1 0\n0 0 -\n"}
    for words, text in texts.items():
        tally.compare(words, program.run(words.split(), b"", folder), (0, text, b""))


def test_greatest_distances(tally, folder):
    """A chain of as many vertices as there may be, with the greatest weights: the greatest distances, hops and numbers of rounds."""
    write_blocks(folder, "chain", b"WeightedAdjacencyGraph %d %d\n" % (MAX_N, MAX_N - 1), blocks(MAX_N, lambda v: b"%d\n" % v),
                 blocks(MAX_N - 1, lambda v: b"%d\n" % (v + 1)), blocks(MAX_N - 1, lambda v: b"%d\n" % MAX_W))
    compare_long(tally, folder, "wbfs --bare chain", b"", blocks(MAX_N, lambda v: b"%d\n" % (v * MAX_W)))
    tree = blocks(MAX_N - 1, lambda v: b"%d %d %d\n" % ((v + 1) * MAX_W, v + 1, v))
    head = b"Distances2\n%d %d\n1 0\n0 0 -\n" % (MAX_N, MAX_N - 1)
    compare_long(tally, folder, f"delta --delta {MAX_W} chain", head, tree)


def test_both_limits(tally, folder):
    """As many vertices and as many places as there may be: a ring in which each vertex has the four before and behind it."""
    near = (-4, -3, -2, -1, 1, 2, 3, 4)
    rows = blocks(MAX_N, lambda v: b"%d\n%d\n%d\n%d\n%d\n%d\n%d\n%d\n" % tuple((v + step) % MAX_N for step in near))
    write_blocks(folder, "ring", b"AdjacencyGraph %d %d\n" % (MAX_N, MAX_M), blocks(MAX_N, lambda v: b"%d\n" % (8 * v)), rows)
    head = b"Cores2\n%d %d\n" % (MAX_N, MAX_M)
    compare_long(tally, folder, "kcore ring", head, blocks(MAX_N, lambda v: b"8 0\n"))
    compare_long(tally, folder, "wbfs --bare ring", b"", blocks(MAX_N, lambda v: b"%d\n" % ((min(v, MAX_N - v) + 3) // 4)))
    write_blocks(folder, "witness", b"Cores\n%d\n" % MAX_N, blocks(MAX_N, lambda v: b"8 0\n"))
    tally.compare("check ring witness", program.run([b"check", b"ring", b"witness"], b"", folder), (0, b"yes\n", b""))
    compare_long(tally, folder, "upgrade ring witness", head, blocks(MAX_N, lambda v: b"8 0\n"))


def test(tally, folder):
    """All of them."""
    for words, line in DEMOS:
        tally.compare(words, program.run(words.split(), b"", folder), (0, line, b""))
    test_lengths(tally, folder)
    test_most_vertices(tally, folder)
    test_most_places(tally, folder)
    test_greatest_distances(tally, folder)
    test_most_sources(tally, folder)
    test_both_limits(tally, folder)
