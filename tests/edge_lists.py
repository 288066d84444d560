"""examples/edge_list.py on small lists whose graphs were worked out by hand."""
import os
import subprocess

import program

SCRIPT = os.path.join(program.TOP, "examples", "edge_list.py")
BOTH_WAYS = ["--both-ways"]

# options, list, graph file, names
GRAPHS = [
    ([], b"a b\nb c\na c\n", b"AdjacencyGraph 3 3 0 2 3 1 2 2", b"a b c"),
    ([], b"x y 0\ny x 4294967295", b"WeightedAdjacencyGraph 2 2 0 1 1 0 0 4294967295", b"x y"),
    ([], b"x y 007\nx y 0000000000007\n", b"WeightedAdjacencyGraph 2 2 0 2 1 1 7 7", b"x y"),
    ([], b"x x\nx x\n", b"AdjacencyGraph 1 2 0 0 0", b"x"),
    ([], b"# u v\n% u v\n\n \t\r\n  # u v\n2 1\r\n\t1   0 \n", b"AdjacencyGraph 3 2 0 1 2 1 2", b"2 1 0"),
    ([], b"a,b , 5\nb ,c,6\n", b"WeightedAdjacencyGraph 3 2 0 1 2 1 2 5 6", b"a b c"),
    ([], b"b#1 %a\n", b"AdjacencyGraph 2 1 0 1 1", b"b#1 %a"),
    ([], b"\xff \xc3\xa9\n", b"AdjacencyGraph 2 1 0 1 1", b"\xff \xc3\xa9"),
    ([], b"", b"AdjacencyGraph 0 0", b""),
    ([], b"# nothing\n", b"AdjacencyGraph 0 0", b""),
    (BOTH_WAYS, b"a b\nb c\n", b"AdjacencyGraph 3 4 0 1 3 1 0 2 1", b"a b c"),
    (BOTH_WAYS, b"a b 5\na a 6\nb a 7\n", b"WeightedAdjacencyGraph 2 5 0 3 1 0 1 0 0 5 6 7 5 7", b"a b"),
]

# list, number of the refused line, what is said of it
REFUSED = [
    (b"a b\nc\n", 2, "an edge has two names and perhaps a weight, and not 1 word"),
    (b"a b 1 2\n", 1, "an edge has two names and perhaps a weight, and not 4 words"),
    (b"# c\na b 1\n\na b\n", 4, "an edge without a weight, after edges with"),
    (b"a b\na b 1\n", 2, "an edge with a weight, after edges without"),
    (b"a b -1\n", 1, "the weight -1 is negative"),
    (b"a b -0.5\n", 1, "the weight -0.5 is negative"),
    (b"a b 1.5\n", 1, "the weight 1.5 isn't a whole number"),
    (b"a b 1e3\n", 1, "the weight 1e3 isn't a whole number"),
    (b"a b -\n", 1, "the weight - isn't a whole number"),
    (b"a b \xff\n", 1, "the weight \ufffd isn't a whole number"),
    (b"a b 4294967296\n", 1, "the weight 4294967296 is above 4294967295"),
    (b"a b " + b"9" * 30 + b"\n", 1, f"the weight {'9' * 30} is above 4294967295"),
    (b"a,b\na,,3\n", 2, "an empty field between commas"),
    (b"a,\n", 1, "an empty field between commas"),
    (b"from,to,weight\n", 1, "the weight weight isn't a whole number"),
]

NAMES = b"New York\n7\nc\n"

# an answer and its lines behind names
ANSWERS = [
    (b"0\n-\n12\n", b"New York\t0\n7\t-\nc\t12\n"),
    (b"Cores2\n3 4\n1 0\n2 1\n2 1\n", b"New York\t1\t0\n7\t2\t1\nc\t2\t1\n"),
    (b"Distances2\n3 4\n2 0 1\n0 0 -\n5 1 0\n- - -\n", b"New York\t0\t0\t-\n7\t5\t1\tNew York\nc\t-\t-\t-\n"),
    (b"Cover2\n3 4\n0 1\n0 2\n- -\n", b"New York\t0\t7\n7\t0\tc\nc\t-\t-\n"),
    (b"Cores\n3\n1 0\n2 1\n2 1\n", b"New York\t1\t0\n7\t2\t1\nc\t2\t1\n"),
    (b"Distances\n3\n0 0 -\n5 1 0\n- - -\n", b"New York\t0\t0\t-\n7\t5\t1\tNew York\nc\t-\t-\t-\n"),
    (b"Cover\n3\n0 1\n0 2\n- -\n", b"New York\t0\t7\n7\t0\tc\nc\t-\t-\n"),
]


def run(words, stdin, folder):
    """The exit code and both outputs of the script."""
    done = subprocess.run([SCRIPT, *words], input=stdin, capture_output=True, cwd=folder, timeout=program.LONGEST)
    return done.returncode, done.stdout, done.stderr


def read(folder, name):
    """The bytes of a file."""
    with open(os.path.join(folder, name), "rb") as file:
        return file.read()


def one_a_line(words):
    """The words, a line each."""
    return b"".join(word + b"\n" for word in words.split())


def test_graphs(tally, folder):
    """Graphs and names of lists, in a file and on standard input."""
    for options, text, graph, names in GRAPHS:
        program.write(folder, "list", text)
        for name, stdin in (("list", b""), ("-", text)):
            code = run(["graph", *options, name, "g"], stdin, folder)[0]
            got = code, read(folder, "g"), read(folder, "g.names")
            tally.compare(f"graph {options} {name} of {text!r}", got, (0, one_a_line(graph), one_a_line(names)))
    run(["graph", "-", "g"], b"New York, Rio de Janeiro\n", folder)
    tally.compare("names with blanks", read(folder, "g.names"), b"New York\nRio de Janeiro\n")


def test_refusals(tally, folder):
    """Lists that are refused, and that nothing was written."""
    for text, line, fault in REFUSED:
        program.write(folder, "list", text)
        got = run(["graph", "list", "none"], b"", folder)
        tally.compare(f"list {text!r}", got, (1, b"", f"list:{line}: {fault}\n".encode()))
    tally.compare("a graph of a refused list", os.path.exists(os.path.join(folder, "none")), False)
    missing = run(["graph", "no_such_file", "none"], b"", folder)
    tally.compare("a missing list", missing, (1, b"", b"[Errno 2] No such file or directory: 'no_such_file'\n"))


def test_names(tally, folder):
    """Names put to answers, and numbers of names."""
    program.write(folder, "names", NAMES)
    for answer, wanted in ANSWERS:
        tally.compare(f"names of {answer!r}", run(["names", "names"], answer, folder), (0, wanted, b""))
    short = run(["names", "names"], b"0\n1\n", folder)
    tally.compare("too few lines", short, (1, b"", b"names: 3 names, but the answer has 2 vertices\n"))
    tally.compare("the number of a name", run(["number", "names", "7"], b"", folder), (0, b"1\n", b""))
    tally.compare("the number of a name with blanks", run(["number", "names", "New York"], b"", folder), (0, b"0\n", b""))
    tally.compare("the numbers of some names", run(["number", "names", "c", "New York", "c"], b"", folder), (0, b"2,0,2\n", b""))
    unknown = run(["number", "names", "7", "Rio"], b"", folder)
    tally.compare("no such name", unknown, (1, b"", b"names: no vertex is named Rio\n"))


def test(tally, folder):
    """All of them."""
    test_graphs(tally, folder)
    test_refusals(tally, folder)
    test_names(tally, folder)
