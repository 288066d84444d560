"""Files of some million bytes, which are read in many blocks and perhaps by many workers: faults and long tokens where blocks meet."""
import itertools
import random
import subprocess
import threading

import answers
import families
import oracle
import program
import texts

BLOCKS = [8192, 65536, 2**20]       # bytes that a program may read at a time
N, PLACES, TURNS, SEED = 40_000, 100_000, 24, 11
LONG = 1_000_000
# what may stand in place of a token, or around it
ODD_TOKENS = ["", "x", "-", "-0", "--1", "4294967296", "16777216", "9" * 30, "0" * 3000 + "1", "1\v", "\xff", "7 7", "\n\n\n", "AdjacencyGraph"]


def base_tokens(rng):
    """The tokens of a large graph."""
    pairs = [(rng.randrange(0, N), rng.randrange(0, N)) for _ in range(PLACES)]
    return [str(token) for token in texts.graph_tokens(families.rows_of(rng, pairs, N, False), True)]


def near_block(rng, ends):
    """The number of a token that ends near the end of a block."""
    block = rng.choice(BLOCKS)
    goal = block * rng.randrange(1, max(2, ends[-1] // block + 1))
    low, high = 0, len(ends) - 1
    while low < high:
        middle = (low + high) // 2
        low, high = (middle + 1, high) if ends[middle] < goal else (low, middle)
    return min(len(ends) - 1, max(0, low + rng.randrange(-1, 2)))


def damaged_text(rng, tokens, ends):
    """The text of the tokens with white bytes before it, and with one of them changed or cut off near the end of a block."""
    at, tokens = near_block(rng, ends), list(tokens)
    kind = rng.random()
    if kind < 0.2:
        del tokens[at:]
    elif kind < 0.9:
        tokens[at] = rng.choice([rng.choice(ODD_TOKENS), tokens[at] + rng.choice(["x", "-", "\v"]), "0" * rng.randrange(0, 9) + tokens[at]])
    text = " " * rng.randrange(0, 12) + rng.choice(["\n", " ", "\r\n"]).join(tokens)
    return (text + rng.choice(["", "\n", " 7", "\t\t"])).encode("latin-1")


def feed(pipe, pieces):
    """Writes the pieces into a pipe and closes it, as far as the program reads them."""
    try:
        with pipe:
            for piece in pieces:
                pipe.write(piece)
    except BrokenPipeError:
        pass


def run_in_pieces(rng, words, text, folder):
    """The program's answer to a text that comes through a pipe in pieces of many sizes."""
    pieces, at = [], 0
    while at < len(text):
        size = rng.choice([1, 7, 4096, 65535, 65536, 65537, 300_000])
        pieces.append(text[at:at + size])
        at += size
    with subprocess.Popen([program.PROGRAM, *words], cwd=folder, stdin=subprocess.PIPE, stdout=subprocess.PIPE,
                          stderr=subprocess.PIPE, bufsize=0) as started:
        feeding = threading.Thread(target=feed, args=(started.stdin, pieces))
        feeding.start()
        out, err = started.stdout.read(), started.stderr.read()
        feeding.join()
    return started.returncode, out, err


def test_damaged(tally, folder):
    """Large files with a fault, or none, where blocks meet; some of them come through a pipe."""
    rng = random.Random(SEED)
    tokens = base_tokens(rng)
    ends = list(itertools.accumulate(len(token) + 1 for token in tokens))
    for turn in range(TURNS):
        text = damaged_text(rng, tokens, ends)
        words = [rng.choice([b"wbfs", b"cover"]), b"--bare", rng.choice([b"g", b"-"]), b"--workers", rng.choice([b"1", b"2", b"7", b"64"])]
        program.write(folder, "g", text)
        got = program.run(words, b"", folder) if b"g" in words else run_in_pieces(rng, words, text, folder)
        tally.compare(f"turn {turn} of seed {SEED}, words {words}", got, oracle.answer(words, {b"g": text, b"-": text}))


# a graph and its distances or its fault, with a token that is longer than each block
LONG_TOKENS = [
    (b"WeightedAdjacencyGraph 2 1 0 1 1 " + b"0" * LONG + b"7", (0, b"0\n7\n", b"")),
    (b"WeightedAdjacencyGraph " + b"0" * LONG + b"2 1 0 1 1 7", (0, b"0\n7\n", b"")),
    (b"WeightedAdjacencyGraph 2 1 0 1 " + b"0" * 2 * LONG + b"1 7\n", (0, b"0\n7\n", b"")),
    (b"\n" * 2 * LONG + b"WeightedAdjacencyGraph 2 1 0 1 1" + b" " * 2 * LONG + b"7" + b"\t" * LONG, (0, b"0\n7\n", b"")),
    (b"WeightedAdjacencyGraph 2 1 0 1 1 " + b"7" * LONG, (3, b"", b"graph: WeightRange at token 6, byte 33\n")),
    (b"WeightedAdjacencyGraph 2 1 0 1 1 -" + b"7" * 2 * LONG, (3, b"", b"graph: NegativeWeight at token 6, byte 33\n")),
    (b"WeightedAdjacencyGraph 2 1 0 1 1 -" + b"7" * 2 * LONG + b"x", (3, b"", b"graph: BadNumber at token 6, byte 33\n")),
    (b"WeightedAdjacencyGraph 2 1 0 1 1 " + b"0" * 2 * LONG + b"x", (3, b"", b"graph: BadNumber at token 6, byte 33\n")),
    (b"WeightedAdjacencyGraph 2 1 0 1 1 7 " + b"x" * LONG, (3, b"", b"graph: Trailing at token 7, byte 35\n")),
    (b"WeightedAdjacencyGraph 2 1 0 1 1" + b" " * LONG, (3, b"", b"graph: Truncated at token 6, byte 1000032\n")),
    (b"AdjacencyGraph" * LONG, (3, b"", b"graph: Header at token 0, byte 0\n")),
    (b"\x00" * LONG, (3, b"", b"graph: Header at token 0, byte 0\n")),
    (b" " * 3 * LONG, (3, b"", b"graph: Truncated at token 0, byte 3000000\n")),
]


def test_long_tokens(tally, folder):
    """Tokens and white bytes of a million bytes and more."""
    rng = random.Random(SEED)
    for text, wanted in LONG_TOKENS:
        program.write(folder, "g", text)
        what = f"a graph of {len(text)} bytes that begins with {text[:40]}"
        tally.compare(what, program.run([b"wbfs", b"--bare", b"g"], b"", folder), wanted)
        tally.compare(f"{what}, in pieces", run_in_pieces(rng, [b"wbfs", b"--bare", b"-"], text, folder), wanted)
        tally.compare(f"the oracle on {what}", oracle.answer([b"wbfs", b"--bare", b"g"], {b"g": text}), wanted)


def test_prefixes(tally, folder):
    """The first tokens of some graphs and of some witnesses."""
    for graph in (answers.TAILED_TRIANGLE, answers.TWO_WAYS, answers.GREATEST_WEIGHTS):
        tokens = graph.split()
        for count in range(len(tokens)):
            text = b" ".join(tokens[:count])
            line = b"graph: Truncated at token %d, byte %d\n" % (count, len(text))
            answers.compare(tally, folder, [b"kcore", b"g"], {b"g": text}, (3, b"", line))
    for witness in (b"Cores 4 2 1 2 1 2 1 1 0", answers.CORES, answers.FROM_TWO):
        tokens = witness.split()
        for count in range(len(tokens)):
            text = b" ".join(tokens[:count])
            line = b"witness: Truncated at token %d, byte %d\n" % (count, len(text))
            answers.compare(tally, folder, [b"check", b"g", b"w"], {b"g": answers.TAILED_TRIANGLE, b"w": text}, (3, b"", line))


def test(tally, folder):
    """All of them."""
    test_damaged(tally, folder)
    test_long_tokens(tally, folder)
    test_prefixes(tally, folder)
