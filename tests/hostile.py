"""Files that vanish, grow or can't be read, slow and broken streams, and what the system refuses while the program runs."""
import os
import resource
import shutil
import signal
import socket
import subprocess
import threading
import time

import program

GRAPH = b"AdjacencyGraph\n4\n8\n0\n2\n4\n7\n1\n2\n0\n2\n0\n1\n3\n2\n"
CORES = b"Cores2\n4 8\n2 1\n2 1\n2 1\n1 0\n"
CORES_BEFORE = b"Cores\n4\n2 1\n2 1\n2 1\n1 0\n"
NO_GRAPH, NO_WITNESS, NO_WRITING = b"read fault: graph\n", b"read fault: witness\n", b"write fault\n"
NO_MEMORY = b"out of memory\n"
DEMO = "demo kcore --n 20000 --pairs 60000 --seed 7 --workers 7"
DEMO_LINE = b"kcore n 20000 m 120000 max 4 top 15774\n"
NOBODY = 65534
PAUSE = 0.005       # seconds between two bytes of a slow writer
MEGABYTE = 2**20

# words with the name of a file that can't be read to its end, and the line on standard error
UNREADABLE = [
    ([b"kcore", b"folder"], NO_GRAPH),
    ([b"check", b"g", b"folder"], NO_WITNESS),
    ([b"kcore", b""], NO_GRAPH),
    ([b"kcore", b"no\nfile"], NO_GRAPH),
    ([b"kcore", b"ring"], NO_GRAPH),
    ([b"check", b"g", b"dangling"], NO_WITNESS),
    ([b"upgrade", b"g", b"folder"], NO_WITNESS),
    ([b"upgrade", b"folder", b"folder"], NO_GRAPH),
    ([b"upgrade", b"g", b"ring"], NO_WITNESS),
    ([b"kcore", b"socket"], NO_GRAPH),
    ([b"check", b"socket", b"socket"], NO_GRAPH),
    ([b"kcore", b"g/g"], NO_GRAPH),
    ([b"kcore", b"x" * 300], NO_GRAPH),
]


def make_files(folder):
    """Files of many kinds, and a program that anyone may run."""
    for name, text in (("g", GRAPH), ("w", CORES_BEFORE), ("a\nb", GRAPH), (" ", GRAPH), ("locked", GRAPH)):
        program.write(folder, name, text)
    os.mkdir(os.path.join(folder, "folder"))
    os.symlink("ring", os.path.join(folder, "ring"))
    os.symlink("nothing", os.path.join(folder, "dangling"))
    os.symlink("a\nb", os.path.join(folder, "link"))
    with socket.socket(socket.AF_UNIX) as listening:
        here = os.getcwd()
        os.chdir(folder)
        listening.bind("socket")
        os.chdir(here)
    shutil.copy(program.PROGRAM, os.path.join(folder, "program"))
    os.chmod(os.path.join(folder, "program"), 0o755)
    os.chmod(os.path.join(folder, "locked"), 0)
    os.chmod(folder, 0o755)


def start(words, folder, **others):
    """Starts the folder's own program."""
    streams = {"stdin": subprocess.DEVNULL, "stdout": subprocess.PIPE, "stderr": subprocess.PIPE, **others}
    return subprocess.Popen([os.path.join(folder, "program"), *words], cwd=folder, bufsize=0, **streams)


def ended(started):
    """The exit code and the bytes of the outputs of a started program."""
    with started:
        out, err = started.communicate(timeout=program.LONGEST)
    return started.returncode, out, err


def as_nobody():
    """Gives up what the system lets its first user do."""
    if os.geteuid() == 0:
        os.setgroups([])
        os.setgid(NOBODY)
        os.setuid(NOBODY)


def without_threads():
    """Lets the system refuse each thread."""
    as_nobody()
    resource.setrlimit(resource.RLIMIT_NPROC, (1, 1))


def with_short_files():
    """Lets the system refuse to write more than ten bytes into a file, without a signal."""
    signal.signal(signal.SIGXFSZ, signal.SIG_IGN)
    resource.setrlimit(resource.RLIMIT_FSIZE, (10, 10))


def test_names(tally, folder):
    """Names of files that are none or can't be read, and names that look like none."""
    for words, line in UNREADABLE:
        tally.compare(words, ended(start(words, folder)), (5, b"", line))
    for name in (b"a\nb", b" ", b"link", b"./g", b"folder/../g"):
        tally.compare(name, ended(start([b"kcore", name], folder)), (0, CORES, b""))
    if os.path.exists("/proc/self/mem"):
        for words, line in ((["kcore", "/proc/self/mem"], NO_GRAPH), (["check", "g", "/proc/self/mem"], NO_WITNESS)):
            tally.compare(words, ended(start(words, folder)), (5, b"", line))


def test_refusals(tally, folder):
    """Files that may not be read, threads that aren't given, and a file that may not grow."""
    tally.compare("a file for nobody", ended(start(["kcore", "g"], folder, preexec_fn=as_nobody)), (0, CORES, b""))
    for words, line in ((["kcore", "locked"], NO_GRAPH), (["check", "g", "locked"], NO_WITNESS)):
        tally.compare(words, ended(start(words, folder, preexec_fn=as_nobody)), (5, b"", line))
    for words in (DEMO, DEMO + " --chunk 1"):
        got = ended(start(words.split(), folder, preexec_fn=without_threads))
        tally.compare(f"{words}, without threads", got, (0, DEMO_LINE, b""))
    with open(os.path.join(folder, "short"), "wb") as out:
        started = start(["kcore", "g"], folder, stdout=out, preexec_fn=with_short_files, restore_signals=False)
        tally.compare("a short file", ended(started), (6, None, NO_WRITING))
    with open(os.path.join(folder, "short"), "rb") as out:
        tally.compare("what is in the short file", out.read(), b"Cores2\n4 8")


def test_memory(tally, folder):
    """Little memory: the answer, or that there is none."""
    for words, text in (("kcore g", CORES), ("check g w", b"yes\n"), ("upgrade g w", CORES), (DEMO, DEMO_LINE)):
        for megabytes in (6, 8, 12, 16, 24, 48):
            most = megabytes * MEGABYTE
            got = ended(start(words.split(), folder, preexec_fn=lambda: resource.setrlimit(resource.RLIMIT_AS, (most, most))))
            wanted = (0, text, b"") if got[0] == 0 else (7, b"", NO_MEMORY)
            tally.compare(f"{words}, {megabytes} megabytes", got, wanted)


def write_slowly(stream, text):
    """Writes a text byte by byte, with a pause behind each."""
    for at in range(len(text)):
        stream.write(text[at:at + 1])
        time.sleep(PAUSE)
    stream.close()


def test_slow_input(tally, folder):
    """Standard input that comes a byte at a time, that has nothing to give, and a program that is held meanwhile."""
    for words, text, out in ((["kcore", "-"], GRAPH, CORES), (["check", "g", "-"], CORES, b"yes\n"),
                             (["upgrade", "g", "-"], CORES_BEFORE, CORES)):
        started = start(words, folder, stdin=subprocess.PIPE)
        writer = threading.Thread(target=write_slowly, args=(started.stdin, text))
        writer.start()
        started.send_signal(signal.SIGSTOP)
        time.sleep(10 * PAUSE)
        started.send_signal(signal.SIGCONT)
        writer.join()
        started.stdin = None
        tally.compare(f"{words} slowly", ended(started), (0, out, b""))
    for words, line in ((["kcore", "-"], NO_GRAPH), (["check", "g", "-"], NO_WITNESS), (["upgrade", "g", "-"], NO_WITNESS)):
        reading, writing = os.pipe()
        os.set_blocking(reading, False)
        tally.compare(f"{words}, an input that doesn't wait", ended(start(words, folder, stdin=reading)), (5, b"", line))
        os.close(reading)
        os.close(writing)


def fed_by_pipe(words, pieces, folder):
    """The program's answer where the file `fifo` is a pipe with a name; what stands between two pieces is called."""
    name = os.path.join(folder, "fifo")
    os.mkfifo(name)
    started = start(words.split(), folder)
    with open(name, "wb", buffering=0) as pipe:
        for piece in pieces:
            if callable(piece):
                piece()
            else:
                pipe.write(piece)
    os.remove(name)
    return ended(started)


def test_changing_files(tally, folder):
    """Files that end early, grow or vanish while they are read."""
    def pause():
        time.sleep(20 * PAUSE)

    def grow():
        with open(os.path.join(folder, "changing"), "ab") as file:
            file.write(b" 7")

    def vanish():
        os.remove(os.path.join(folder, "changing"))

    head, tail, length = GRAPH[:20], GRAPH[20:], len(GRAPH)
    for what, words, pieces, wanted in (
            ("in two pieces", "kcore fifo", [head, pause, tail], (0, CORES, b"")),
            ("it grows by white bytes", "kcore fifo", [GRAPH, pause, b" \t\r\n"], (0, CORES, b"")),
            ("it grows", "kcore fifo", [GRAPH, pause, b"7"], (3, b"", b"graph: Trailing at token 15, byte %d\n" % length)),
            ("its writer ends", "kcore fifo", [head, pause], (3, b"", b"graph: Truncated at token 4, byte 20\n")),
            ("nobody writes", "kcore fifo", [], (3, b"", b"graph: Truncated at token 0, byte 0\n")),
            ("a witness that ends", "check g fifo", [CORES[:12], pause], (3, b"", b"witness: Truncated at token 4, byte 12\n")),
            ("the witness stays", "check fifo changing", [head, pause, tail], (0, b"yes\n", b"")),
            ("the witness grows", "check fifo changing", [head, pause, grow, tail],
             (3, b"", b"witness: Trailing at token 11, byte %d\n" % (len(CORES) + 1))),
            ("the witness stays", "upgrade fifo changing", [head, pause, tail], (0, CORES, b"")),
            ("the witness grows", "upgrade fifo changing", [head, pause, grow, tail],
             (3, b"", b"witness: Trailing at token 11, byte %d\n" % (len(CORES) + 1))),
            ("the witness vanishes", "check fifo changing", [head, pause, vanish, tail], (5, b"", NO_WITNESS))):
        program.write(folder, "changing", CORES)
        tally.compare(f"{words}, {what}", fed_by_pipe(words, pieces, folder), wanted)


def test_open_files(tally, folder):
    """Standard input that is a file without a name, or is read from the middle on."""
    program.write(folder, "unnamed", b"x" * 7 + GRAPH)
    with open(os.path.join(folder, "unnamed"), "rb", buffering=0) as file:
        os.remove(os.path.join(folder, "unnamed"))
        file.seek(7)
        tally.compare("a file without a name", ended(start(["kcore", "-"], folder, stdin=file)), (0, CORES, b""))
        tally.compare("the same, at its end", ended(start(["kcore", "-"], folder, stdin=file)),
                      (3, b"", b"graph: Truncated at token 0, byte 0\n"))


def test_slow_output(tally, folder):
    """A reader that takes some bytes at a time, and one that doesn't let the program wait."""
    count = 200000
    program.write(folder, "long", b"AdjacencyGraph %d 0" % count + b" 0" * count)
    text = b"-\n" * count
    with start(["cover", "long", "--bare"], folder) as started:
        out = b"".join(iter(lambda: started.stdout.read(997), b""))
        err = started.stderr.read()
    tally.compare("a slow reader", (started.returncode, out == text, err), (0, True, b""))
    reading, writing = os.pipe()
    os.set_blocking(writing, False)
    code, _, err = ended(start(["cover", "long", "--bare"], folder, stdout=writing))
    os.close(writing)
    with open(reading, "rb") as pipe:
        out = pipe.read()
    tally.compare("an output that doesn't wait", (code, 0 < len(out) < len(text) and text.startswith(out), err), (6, True, NO_WRITING))


def test(tally, folder):
    """All of them."""
    make_files(folder)
    test_names(tally, folder)
    test_refusals(tally, folder)
    test_memory(tally, folder)
    test_slow_input(tally, folder)
    test_changing_files(tally, folder)
    test_open_files(tally, folder)
    test_slow_output(tally, folder)
