"""Random files and command lines, each answered by the built program and by the oracle.

    tests/attack.py [COUNT] [SEED]

Turn by turn the same for each count of a seed; it ends at the first turn that isn't answered as the oracle answers. A whole
text that was answered is handed to the program again, on the same graph and without sources: a check says yes, and an upgrade
gives the same bytes.
"""
import functools
import random
import sys
import tempfile

import command_lines
import compared
import oracle
import program
import scenes
from oracle.command_line import asked

GATE_TURNS, GATE_SEED = 6000, 20
YES = b"yes\n"


@functools.lru_cache(maxsize=None)
def case(seed, turn):
    """The words and the files of a turn; the file of the name - is standard input."""
    rng = random.Random(f"{seed} {turn}")
    scene = scenes.random_scene(rng)
    words = command_lines.random_words(rng, scene)
    asked_for = asked(words)
    reads_witness = asked_for is not None and asked_for.witness == b"-"
    stdin = scene.witness if reads_witness else scene.graph
    return words, {b"g": scene.graph, b"w": scene.witness, b"-g": scene.graph, b"-": stdin}


def files(seed, count):
    """Each file of so many turns of a seed."""
    for turn in range(count):
        made = case(seed, turn)[1]
        yield from (made[b"g"], made[b"w"])


def is_whole(asked_for, code):
    """Whether an answer is a text that a checker takes."""
    return code == 0 and asked_for.task != b"check" and asked_for.sizes is None and not asked_for.is_bare


def compare_again(tally, folder, what, graph, text, stdin):
    """Has the program check and upgrade the text that it wrote; no sources are given, since the text names its own."""
    program.write(folder, "text", text)
    for task, out in ((b"check", YES), (b"upgrade", text)):
        tally.compare(f"{task} of the text of {what}", program.run([task, b"--", graph, b"text"], stdin, folder), (0, out, b""))


def compare_turn(tally, folder, what, words, files):
    """Compares the answer to words and files with that of the oracle, and hands a whole text to the program again."""
    for name in (b"g", b"w", b"-g"):
        program.write(folder, name.decode(), files[name])
    got, wanted = program.run(words, files[b"-"], folder), oracle.answer(words, files)
    tally.compare(what, got, wanted)
    if got == wanted and is_whole(asked(words), got[0]):
        compare_again(tally, folder, what, asked(words).graph, got[1], files[b"-"])


def attack(tally, folder, count, seed):
    """Compares the turns of a seed, until one isn't as wanted."""
    for turn in range(count):
        words, files = case(seed, turn)
        compare_turn(tally, folder, f"turn {turn} of seed {seed}: words {words!r}, files {files!r}", words, files)
        if tally.failures:
            return


def test(tally, folder):
    """The turns of the gate."""
    attack(tally, folder, GATE_TURNS, GATE_SEED)


def main(words):
    """Compares as many turns of a seed as the words say."""
    count, seed = ([int(word) for word in words] + [1000, 1][len(words):])[:2]
    answered = compared.Tally()
    with tempfile.TemporaryDirectory() as folder:
        attack(answered, folder, count, seed)
    print(f"{answered.compared} answers to random files and command lines compared, {answered.failures} not as wanted")
    return 1 if answered.failures else 0


if __name__ == "__main__":
    sys.exit(main(sys.argv[1:]))
