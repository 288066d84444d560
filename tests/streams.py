"""Outputs that take no bytes, inputs that are closed, and what the program makes of them."""
import os
import subprocess

import program

GRAPH = b"WeightedAdjacencyGraph 3 3 0 2 2 1 2 1 5 1 2"
PAIR = b"AdjacencyGraph 2 2 0 1 1 0"
WITNESS = b"Distances 3 0 0 - 3 2 2 1 1 0"
DISTANCES = b"0\n3\n1\n"
TREE = b"Distances2\n3 3\n1 0\n0 0 -\n3 2 2\n1 1 0\n"
CORES = b"Cores2\n2 2\n1 0\n1 0\n"
LOOPED = b"kcore n 1 m 6 max 6 top 1\n"
BROKEN = b"graph: Truncated at token 0, byte 0\n"
NO_GRAPH, NO_WITNESS, NO_WRITING = b"read fault: graph\n", b"read fault: witness\n", b"write fault\n"

WBFS = "wbfs --bare --source 0 g"
WBFS_INPUT = "wbfs --bare --source 0 -"
DEMO = "demo kcore --n 1 --pairs 3 --seed 7"
RANGE = "wbfs --bare --source 3 g"
RANGE_LINE = b"source 3 is not below 3\n"
DIFFER_LINE = b"sources differ at entry 0\n"
PLACE = "kcore g"
PLACE_LINE = b"asymmetric at place 0\n"

# words, redirections of the shell, exit code, standard output, standard error; a stream that is redirected gets no bytes here
RUNS = [
    (WBFS, ">/dev/full", 6, b"", NO_WRITING),
    ("wbfs g", ">/dev/full", 6, b"", NO_WRITING),
    ("delta g --delta 2 --workers 1", ">/dev/full", 6, b"", NO_WRITING),
    ("kcore pair", ">/dev/full", 6, b"", NO_WRITING),
    ("cover g", ">/dev/full", 6, b"", NO_WRITING),
    (DEMO, ">/dev/full", 6, b"", NO_WRITING),
    ("check g w", ">/dev/full", 6, b"", NO_WRITING),
    ("check g w --source 1", ">/dev/full", 6, b"", NO_WRITING),
    ("upgrade g w", ">/dev/full", 6, b"", NO_WRITING),
    ("upgrade g w --source 1", ">/dev/full", 6, b"", NO_WRITING),
    ("check g named --source 1", ">/dev/full", 4, b"", DIFFER_LINE),
    ("upgrade g named --source 1", "2>/dev/full", 4, b"", b""),
    ("kcore none --bare", ">/dev/full", 0, b"", b""),
    (RANGE, ">/dev/full", 4, b"", RANGE_LINE),
    (PLACE, ">/dev/full", 4, b"", PLACE_LINE),
    (RANGE, "2>/dev/full", 4, b"", b""),
    (PLACE, "2>/dev/full", 4, b"", b""),
    ("peel g", "2>/dev/full", 2, b"", b""),
    (WBFS, "2>/dev/full", 0, DISTANCES, b""),
    ("check g w --source 1", "2>/dev/full", 1, b"no 0 Parent\n", b""),
    (WBFS, ">/dev/full 2>/dev/full", 6, b"", b""),
    (WBFS, ">&-", 6, b"", NO_WRITING),
    ("kcore pair", ">&-", 6, b"", NO_WRITING),
    (DEMO, ">&-", 6, b"", NO_WRITING),
    ("check g w", ">&-", 6, b"", NO_WRITING),
    ("upgrade g named", ">&-", 6, b"", NO_WRITING),
    (RANGE, "2>&-", 4, b"", b""),
    (WBFS, "2>&-", 0, DISTANCES, b""),
    (WBFS, "<&-", 0, DISTANCES, b""),
    ("wbfs g", "<&-", 0, TREE, b""),
    (DEMO, "<&-", 0, LOOPED, b""),
    ("check g w", "<&-", 0, b"yes\n", b""),
    ("upgrade g w", "<&-", 0, TREE, b""),
    (WBFS_INPUT, "<&-", 5, b"", NO_GRAPH),
    ("kcore -", "<&-", 5, b"", NO_GRAPH),
    ("check - w", "<&-", 5, b"", NO_GRAPH),
    ("check g -", "<&-", 5, b"", NO_WITNESS),
    ("upgrade - w", "<&-", 5, b"", NO_GRAPH),
    ("upgrade g -", "<&-", 5, b"", NO_WITNESS),
    (WBFS, "<&- >&- 2>&-", 6, b"", b""),
    (WBFS_INPUT, "<.", 5, b"", NO_GRAPH),
    ("cover -", "<.", 5, b"", NO_GRAPH),
    (WBFS_INPUT, "</dev/null", 3, b"", BROKEN),
    (WBFS_INPUT, "<g", 0, DISTANCES, b""),
    ("kcore -", "<pair", 0, CORES, b""),
    ("check - w", "<g", 0, b"yes\n", b""),
    ("check g -", "<w", 0, b"yes\n", b""),
    ("upgrade - named", "<g", 0, TREE, b""),
    ("upgrade g -", "<w", 0, TREE, b""),
]


def run_redirected(words, redirections, folder):
    """The program's answer where the shell redirects its streams."""
    command = f'exec "$0" {words} {redirections}'
    done = subprocess.run(["sh", "-c", command, program.PROGRAM], stdin=subprocess.DEVNULL, capture_output=True,
                          cwd=folder, timeout=program.LONGEST)
    return done.returncode, done.stdout, done.stderr


def closed_pipe():
    """The end for writing of a pipe whose other end is closed."""
    reading, writing = os.pipe()
    os.close(reading)
    return writing


def run_into_closed_pipe(words, stream, folder):
    """The exit code and the bytes of the other output, where a stream is a pipe that nobody reads."""
    pipe = closed_pipe()
    streams = {"stdin": subprocess.DEVNULL, "stdout": subprocess.PIPE, "stderr": subprocess.PIPE, stream: pipe}
    done = subprocess.run([program.PROGRAM, *words.split()], cwd=folder, timeout=program.LONGEST, **streams)
    os.close(pipe)
    return done.returncode, done.stderr if stream == "stdout" else done.stdout


# words, the stream that nobody reads, exit code, the bytes of the other output
CLOSED_PIPES = [
    (WBFS, "stdout", 6, NO_WRITING),
    ("kcore pair", "stdout", 6, NO_WRITING),
    ("cover g", "stdout", 6, NO_WRITING),
    (DEMO, "stdout", 6, NO_WRITING),
    ("check g w", "stdout", 6, NO_WRITING),
    ("upgrade g w", "stdout", 6, NO_WRITING),
    (RANGE, "stdout", 4, RANGE_LINE),
    (RANGE, "stderr", 4, b""),
    (PLACE, "stderr", 4, b""),
    ("peel g", "stderr", 2, b""),
    (WBFS, "stderr", 0, DISTANCES),
]


def run_in_pieces(words, text, folder):
    """The program's answer to a text that comes byte by byte."""
    with subprocess.Popen([program.PROGRAM, *words.split()], cwd=folder, stdin=subprocess.PIPE, stdout=subprocess.PIPE,
                          stderr=subprocess.PIPE, bufsize=0) as started:
        for at in range(len(text)):
            started.stdin.write(text[at:at + 1])
        out, err = started.communicate(timeout=program.LONGEST)
    return started.returncode, out, err


def run_until_reader_ends(words, folder):
    """The program's answer where the reader of a long text ends behind its first bytes."""
    with subprocess.Popen([program.PROGRAM, *words.split()], cwd=folder, stdin=subprocess.DEVNULL, stdout=subprocess.PIPE,
                          stderr=subprocess.PIPE) as started:
        first = started.stdout.read(4)
        started.stdout.close()
        err = started.stderr.read()
    return started.returncode, first, err


def run_on_fifo(words, text, folder):
    """The program's answer where the file is a pipe with a name, written once by another process."""
    name = os.path.join(folder, "fifo")
    os.mkfifo(name)
    with subprocess.Popen(["sh", "-c", "cat > fifo"], cwd=folder, stdin=subprocess.PIPE) as writer:
        writer.stdin.write(text)
        writer.stdin.close()
        answer = program.run(words.split(), b"", folder)
    os.remove(name)
    return answer


def test_redirected(tally, folder):
    """Streams that are full, closed or another file, and pipes that nobody reads."""
    for words, redirections, *wanted in RUNS:
        if "/dev/full" in redirections and not os.path.exists("/dev/full"):
            continue
        tally.compare(f"{words} {redirections}", run_redirected(words, redirections, folder), tuple(wanted))
    for words, stream, *wanted in CLOSED_PIPES:
        tally.compare(f"{words}, nobody reads its {stream}", run_into_closed_pipe(words, stream, folder), tuple(wanted))


def test_slow(tally, folder):
    """Texts that come byte by byte or by way of a named pipe, and a reader that ends before the text."""
    tally.compare("input byte by byte", run_in_pieces(WBFS_INPUT, GRAPH, folder), (0, DISTANCES, b""))
    tally.compare("a witness byte by byte", run_in_pieces("check g -", WITNESS, folder), (0, b"yes\n", b""))
    tally.compare("a witness byte by byte, upgraded", run_in_pieces("upgrade g -", WITNESS, folder), (0, TREE, b""))
    for words, text, out in (("wbfs --bare fifo", GRAPH, DISTANCES), ("wbfs fifo", GRAPH, TREE), ("kcore fifo", PAIR, CORES),
                             ("check g fifo", TREE, b"yes\n"), ("check fifo w", GRAPH, b"yes\n"), ("upgrade g fifo", WITNESS, TREE)):
        tally.compare(f"{words}, a pipe with a name", run_on_fifo(words, text, folder), (0, out, b""))
    program.write(folder, "long", b"AdjacencyGraph 200000 0" + b" 0" * 200000)
    for words, first in (("wbfs --bare --source 0 long", b"0\n-\n"), ("kcore long", b"Core"), ("cover long --bare", b"-\n-\n")):
        tally.compare(f"{words}, a reader that ends", run_until_reader_ends(words, folder), (6, first, NO_WRITING))


def test(tally, folder):
    """All of them."""
    for name, text in (("g", GRAPH), ("w", WITNESS), ("named", TREE), ("pair", PAIR), ("none", b"AdjacencyGraph 0 0")):
        program.write(folder, name, text)
    test_redirected(tally, folder)
    test_slow(tally, folder)
