"""The files of the attack read in blocks of 1, 3 and 4,194,304 bytes by the program jul_stream_trials, beside the oracle.

The program is given cases, each a graph file with the most bytes that it may have, and writes a line for each way to read one.
Most files are those of the attack; some of them are cut off at any byte, and some are too long by a byte or more. A few have
some million bytes, so that the longest blocks end within them and several workers read one.
"""
import itertools
import os
import random
import subprocess
import sys

import attack
import oracle
import pieces
import program

LONGEST_BLOCK = 2**22
WAYS = [(1, 1), (3, 1), (LONGEST_BLOCK, 1), (LONGEST_BLOCK, 4)]      # the most bytes of a block, and the most workers
LONG_FILES = 6
# bytes that are no list of cases
NO_CASES = [b"", b" \n", b"x", b"-1\n", b"1", b"1\n", b"1\n18", b"1\n18 1", b"1\n18 19\nAdjacencyGraph 0 0", b"0\n0", b"1\n4294967297 0\n",
            b"2\n18 18\nAdjacencyGraph 0 0", b"1\n18 17\nAdjacencyGraph 0 0", b"1\n18 18446744073709551616\nAdjacencyGraph 0 0"]


def limit_of(rng, text):
    """The most bytes that a file may have: mostly as many as any file may."""
    return rng.choice([len(text), len(text) + 1, max(0, len(text) - 1), 0]) if rng.random() < 0.08 else oracle.MAX_BYTES


def cases(seed, turns):
    """Each file of the attack's turns with a limit, and some of them cut off anywhere."""
    rng = random.Random(f"{seed} limits")
    for text in attack.files(seed, turns):
        yield text, limit_of(rng, text)
        if rng.random() < 0.2:
            yield text[:rng.randrange(0, len(text) + 1)], oracle.MAX_BYTES


def long_cases(seed):
    """Files with tokens of a million bytes, and files of which the longest block ends within a token, or where one ends."""
    rng = random.Random(f"{seed} long")
    for text, _ in pieces.LONG_TOKENS:
        yield text, oracle.MAX_BYTES
    tokens = pieces.base_tokens(rng)
    ends = list(itertools.accumulate(len(token) + 1 for token in tokens))
    for _ in range(LONG_FILES):
        text = pieces.damaged_text(rng, tokens, ends)
        yield rng.choice([b" ", b"\n", b"\t"]) * (LONGEST_BLOCK - rng.randrange(0, len(text))) + text, oracle.MAX_BYTES


def framed(listed):
    """The cases as the program takes them."""
    return b"%d\n" % len(listed) + b"".join(b"%d %d\n%s\n" % (limit, len(text), text) for text, limit in listed)


def lines_about(text, limit):
    """The program's lines about a case."""
    told = oracle.told(text, limit)
    return [b"%d %d %s\n" % (block, workers, told) for block, workers in WAYS]


def run(stdin):
    """The exit code of the program, and the bytes of its outputs."""
    done = subprocess.run([program.STREAM_TRIALS], input=stdin, capture_output=True, timeout=program.LONGEST)
    return done.returncode, done.stdout, done.stderr


def compare(tally, what, listed):
    """Compares each line about the cases."""
    code, out, err = run(framed(listed))
    tally.compare(f"the end of the readings of {what}", (code, err), (0, b""))
    lines = out.splitlines(keepends=True)
    tally.compare(f"the number of lines about {what}", len(lines), len(WAYS) * len(listed))
    for index, (text, limit) in enumerate(listed):
        got = lines[index * len(WAYS):(index + 1) * len(WAYS)]
        shown = text if len(text) < 1000 else text[-100:]
        tally.compare(f"case {index} of {what}, limit {limit}, {len(text)} bytes: {shown!r}", got, lines_about(text, limit))


def test(tally, folder):
    """Every file of the attack of the gate, long files, and bytes that are no list of cases."""
    if not os.access(program.STREAM_TRIALS, os.X_OK):
        sys.exit(f"{program.STREAM_TRIALS} is not built: run rt ci at the top")
    compare(tally, f"seed {attack.GATE_SEED}", list(cases(attack.GATE_SEED, attack.GATE_TURNS)))
    compare(tally, "long files", list(long_cases(attack.GATE_SEED)))
    for stdin in NO_CASES:
        tally.compare(f"no cases, {stdin!r}", run(stdin), (3, b"", b"the input is no list of cases\n"))
