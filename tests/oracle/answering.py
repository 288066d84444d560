"""The exit code and the bytes of both outputs, for words and files."""
from itertools import zip_longest

from .checking import verdict
from .command_line import JUDGED, USAGE, asked
from .definitions import cores_lines, coreness, cover_lines, distances_lines, first_asymmetric_place
from .generator import generate
from .reading import Fault, read_graph, read_witness

# the word of a task's text, and the column that is the bare text
TEXTS = {b"wbfs": (b"Distances", 0), b"delta": (b"Distances", 0), b"kcore": (b"Cores", 0), b"cover": (b"Cover", 1)}


def columns(word, rows, sources):
    """The lines of the text that begins with a word."""
    if word == b"Cores":
        return cores_lines(rows)
    return cover_lines(rows) if word == b"Cover" else distances_lines(rows, sources)


def written(entries):
    """A line of a text: numbers, and dashes for None."""
    return b" ".join(b"-" if entry is None else b"%d" % entry for entry in entries) + b"\n"


def whole_text(word, rows, sources, lines):
    """The text with its head and all columns."""
    head = b"%s2\n%d %d\n" % (word, len(rows), sum(map(len, rows)))
    if word == b"Distances":
        head += written([len(sources), *sources])
    return head + b"".join(map(written, lines))


def bare_text(task, lines):
    """The text of one column."""
    column = TEXTS[task][1]
    return b"".join(written(line[column:column + 1]) for line in lines)


def summary(task, rows, sources):
    """The line of a demo."""
    head = b"%s n %d m %d " % (task, len(rows), sum(map(len, rows)))
    if task == b"kcore":
        cores = coreness(rows)
        return head + b"max %d top %d\n" % (max(cores), cores.count(max(cores)))
    lines = columns(TEXTS[task][0], rows, sources)
    if task == b"cover":
        chosen, covered = (sum(line[column] is not None for line in lines) for column in (0, 1))
        return head + b"chosen %d covered %d\n" % (chosen, covered)
    reached = [line[0] for line in lines if line[0] is not None]
    return head + b"reached %d max %d\n" % (len(reached), max(reached))


def no_vertex(sources, rows):
    """The line of the first source that is no vertex; None where each is one."""
    beyond = [source for source in sources if source >= len(rows)]
    return b"source %d is not below %d\n" % (beyond[0], len(rows)) if beyond else None


def refusal(task, rows, sources):
    """The line of a source that is no vertex, or of a graph that isn't symmetric; None where the task can be done."""
    if task in (b"wbfs", b"delta"):
        return no_vertex(sources, rows)
    place = first_asymmetric_place(rows) if task == b"kcore" else None
    return None if place is None else b"asymmetric at place %d\n" % place


def solve(asked_for, rows):
    """The answer of a task on a graph."""
    task, sources = asked_for.task, asked_for.named or [0]
    line = refusal(task, rows, sources)
    if line is not None:
        return 4, b"", line
    if asked_for.sizes is not None:
        return 0, summary(task, rows, sources), b""
    word = TEXTS[task][0]
    lines = columns(word, rows, sources)
    return 0, bare_text(task, lines) if asked_for.is_bare else whole_text(word, rows, sources, lines), b""


def difference(first, second):
    """The least index at which two lists differ, None where they are equal."""
    return next((at for at, (one, other) in enumerate(zip_longest(first, second)) if one != other), None)


def misfit(witness, rows, named):
    """The line of what keeps a witness from being one of the graph and the sources, in their order; None where nothing does."""
    places = sum(map(len, rows))
    if len(witness.lines) != len(rows):
        return b"witness size %d, graph size %d\n" % (len(witness.lines), len(rows))
    if witness.places not in (None, places):
        return b"witness places %d, graph places %d\n" % (witness.places, places)
    if witness.word != b"Distances":
        return None
    at = None if None in (witness.sources, named) else difference(witness.sources, named)
    return no_vertex(sources_of(witness, named), rows) if at is None else b"sources differ at entry %d\n" % at


def sources_of(witness, named):
    """The sources that a text of distances names, or else those of the words."""
    return witness.sources or named or [0]


def judge(asked_for, rows, files):
    """The answer of a check of a witness file, or of its upgrade."""
    if asked_for.witness not in files:
        return 5, b"", b"read fault: witness\n"
    try:
        witness = read_witness(files[asked_for.witness])
    except Fault as fault:
        return 3, b"", b"witness: " + fault.place
    line = misfit(witness, rows, asked_for.named)
    if line is not None:
        return 4, b"", line
    sources = sources_of(witness, asked_for.named)
    code, line = verdict(rows, witness.word, witness.lines, sources)
    if code == 0 and asked_for.task == b"upgrade":
        return 0, whole_text(witness.word, rows, sources, witness.lines), b""
    return code, line, b""


def answer(words, files):
    """The exit code, the bytes of standard output and of standard error for words and files (bytes to bytes)."""
    asked_for = asked(words)
    if asked_for is None:
        return 2, b"", USAGE
    if asked_for.sizes is not None:
        return solve(asked_for, generate(*asked_for.sizes))
    if asked_for.graph not in files:
        return 5, b"", b"read fault: graph\n"
    try:
        rows = read_graph(files[asked_for.graph])
    except Fault as fault:
        return 3, b"", b"graph: " + fault.place
    return judge(asked_for, rows, files) if asked_for.task in JUDGED else solve(asked_for, rows)
