"""Command lines that are taken and command lines that aren't, and names of files that can't be read."""
import answers
import oracle
import program

GRAPH = answers.TAILED_TRIANGLE
CORES = (0, answers.CORES, b"")
STEPS = (0, b"Distances2\n4 8\n1 2\n1 1 2\n1 1 2\n0 0 -\n1 1 2\n", b"")
BARE_STEPS = (0, b"1\n1\n0\n1\n", b"")
FROM_ENDS = (0, b"Distances2\n4 8\n2 0 3\n0 0 -\n1 1 0\n1 1 0\n0 0 -\n", b"")
BEYOND = (4, b"", b"source 4 is not below 4\n")

# words that ask for the same as others, and the answer on the graph; the file of a name that begins with a dash has it too
TAKEN = [
    ("--workers=2 kcore g --chunk 1", CORES),
    ("--chunk 1 --workers 2 kcore g", CORES),
    ("kcore --open 1 g", CORES),
    ("kcore g --open=65536 --workers=64 --chunk=65536", CORES),
    ("kcore g --workers 007", CORES),
    ("kcore -- g", CORES),
    ("-- kcore g", CORES),
    ("kcore g --", CORES),
    ("--open 1 -- kcore -", CORES),
    ("kcore -- -", CORES),
    ("kcore --workers 1 -- -g", CORES),
    ("-- kcore --bare", CORES),
    ("wbfs --source=2 g", STEPS),
    ("wbfs --source 02 -- g", STEPS),
    ("delta --delta=3 g --source 2", STEPS),
    ("--bare wbfs g --source=2", BARE_STEPS),
    ("wbfs --bare --source 2 g", BARE_STEPS),
    ("--delta 1 delta g --source=2 --bare", BARE_STEPS),
    ("check g -- w", answers.YES),
    ("--source 7 check g w", answers.YES),
    ("check g w --source 7,8,7", answers.YES),
    ("wbfs g --source 0,3", FROM_ENDS),
    ("wbfs g --source=3,0", FROM_ENDS),
    ("--source 03,0,3,000 wbfs -- g", FROM_ENDS),
    ("delta g --delta 2 --source=0,3,3", FROM_ENDS),
    (f"wbfs g --source 0{1023 * ',3'}", FROM_ENDS),
    (f"wbfs g --source {1023 * '3,'}0", FROM_ENDS),
    (f"wbfs g --source {'0' * 5000}3,0", FROM_ENDS),
    ("wbfs g --source 4,5", BEYOND),
    ("wbfs g --source 4294967295,5,4", BEYOND),
    (f"wbfs g --source {','.join(map(str, range(1024)))}", BEYOND),
    (f"wbfs g --source {','.join(map(str, reversed(range(1024))))}", BEYOND),
    ("upgrade g w", CORES),
    ("upgrade g -- w", CORES),
    ("--source=7 upgrade g w", CORES),
    ("upgrade --source 1,2 - w", CORES),
    ("-- upgrade -g w", CORES),
    ("upgrade g g", (3, b"", b"witness: Header at token 0, byte 0\n")),
]

# words that aren't taken; a word of two quotes is the empty one
NOT_TAKEN = """
-
--
-- -- kcore g
g
kcore
kcore g w
kcore g ''
'' g
peel g
Kcore g
kcore\tg
kcore g --chunk 1 --chunk 1
kcore g --chunk=1 --chunk 1
kcore g --chunk=1 --chunk=1
kcore g --chunk --chunk 1
kcore --bare g --bare
kcore g --bare=
kcore g --bare=true
kcore g --bare true
kcore g --no-bare
kcore g --bar
kcore g --b
kcore g -b
kcore g -1
check --source=0 w --
w kcore g --
kcore g --source 0
kcore g --delta 1
kcore g --n 4
kcore g --workers
kcore g --workers=
kcore g --workers ''
kcore g --workers --
kcore g --workers -- 1
kcore g --workers -1
kcore g --workers=-1
kcore g --workers=+1
kcore g --workers=1.0
kcore g --workers==1
kcore g --workers= 1
kcore g --workers - 1
kcore g --workers -
kcore g --workers 0
kcore g --workers 65
kcore g --workers 18446744073709551617
kcore g --worker 1
kcore g --Workers 1
kcore g -workers 1
kcore g ---workers 1
kcore g --workers:1
kcore g --chunk 0
kcore g --chunk 65537
kcore g --open 0
kcore g --open 65537
kcore g --threads 1
kcore g --help
kcore g -h
--help
-h
--version
-V
help
help kcore
cover g --source 0
cover g --pairs 1
cover g --delta 1
wbfs g --delta 1
wbfs g --source -1
wbfs g --source 4294967296
wbfs g --source
wbfs g --source --bare
wbfs g --source=0 --source=0
wbfs g --source=0 --source=3
wbfs g --source 0 3
wbfs g --source ''
wbfs g --source=
wbfs g --source ,
wbfs g --source 0,
wbfs g --source ,0
wbfs g --source 0,,1
wbfs g --source 0,-1
wbfs g --source -1,0
wbfs g --source=-1,0
wbfs g --source 0,+1
wbfs g --source 0, 1
wbfs g --source=0, 1
wbfs g --source 0\t,1
wbfs g --source 0;1
wbfs g --source 0:1
wbfs g --source 0,x
wbfs g --source 0,0x1
wbfs g --source 0,1.0
wbfs g --source 0,-
wbfs g --source 0,4294967296
wbfs g --source 4294967296,0
wbfs g --source 18446744073709551616,0
wbfs g --source [0,1]
wbfs g --source 0,1 --source 0,1
kcore g --source 0,1
cover g --source 0,1
kcore g --workers 1,2
delta g --delta 1,2
demo wbfs --n 1 --pairs 0,0 --seed 0
demo cover --n 2 --pairs 0 --seed 0 --source 0,1
demo delta --n 2 --pairs 0 --seed 0 --delta 1 --source 0,,1
wbfs g g
wbfs g --seed 1
wbfs --source 0
delta g
delta g --delta 0
delta g --delta 4294967296
delta g --delta
delta g --delta 1 --delta 1
delta --delta 1
check g
check g --source 0
check g w w
check - -
check - - --source 0
check -- - -
check g w --bare
check g w --workers 1
check g w --open 1
check g w --chunk 1
check g w --delta 1
check g w --n 4
check g w --source
check g w --source x
check g w --source 0,
check g w --source ,
check g -w
upgrade
upgrade g
upgrade g --source 0
upgrade g w w
upgrade - -
upgrade - - --source 0
upgrade -- - -
upgrade g w --bare
upgrade g w --workers 1
upgrade g w --open 1
upgrade g w --chunk 1
upgrade g w --delta 1
upgrade g w --n 4
upgrade g w --seed 4
upgrade g w --source
upgrade g w --source 0,x
upgrade g w --source 0 --source 0
upgrade g -w
Upgrade g w
upgrad g w
demo
demo kcore
demo --n 1 --pairs 0 --seed 0
demo peel --n 1 --pairs 0 --seed 0
demo check --n 1 --pairs 0 --seed 0
demo demo --n 1 --pairs 0 --seed 0
demo upgrade --n 1 --pairs 0 --seed 0
demo upgrade g w
demo - --n 1 --pairs 0 --seed 0
demo g --n 1 --pairs 0 --seed 0
demo kcore g --n 1 --pairs 0 --seed 0
demo kcore --pairs 0 --seed 0
demo kcore --n 1 --seed 0
demo kcore --n 1 --pairs 0
demo kcore --n 0 --pairs 0 --seed 0
demo kcore --n 16777217 --pairs 0 --seed 0
demo kcore --n 1 --pairs 67108865 --seed 0
demo kcore --n 1 --pairs 0 --seed 18446744073709551616
demo kcore --n 1 --pairs 0 --seed -1
demo kcore --n 1 --pairs 0 --seed 0 --bare
demo kcore --n 1 --pairs 0 --seed 0 --source 0
demo cover --n 1 --pairs 0 --seed 0 --source 0
demo kcore --n 1 --pairs 0 --seed 0 --delta 1
demo wbfs --n 1 --pairs 0 --seed 0 --delta 1
demo delta --n 1 --pairs 0 --seed 0
demo delta --n 1 --pairs 0 --seed 0 --delta 0
demo wbfs --n 1 --pairs 0 --seed 0 --source 4294967296
demo wbfs --n 1 --n 1 --pairs 0 --seed 0
"""

# words that aren't UTF-8
NO_TEXT = [
    [b"kcore", b"\xff"],
    [b"kcore", b"g\xc3"],
    [b"\xff", b"g"],
    [b"kcore", b"g", b"--\xff"],
    [b"wbfs", b"g", b"--source=\xff"],
    [b"wbfs", b"g", b"--source", b"\xed\xa0\x80"],
    [b"wbfs", b"g", b"--source", b"0,\xff"],
    [b"check", b"g", b"w\x80"],
    [b"upgrade", b"g", b"w\x80"],
]

# lists that have a number too many, or a part that no number is
NO_LISTS = [
    b"0" + 1024 * b",0",
    b"0" + 1024 * b",1",
    b",".join(b"%d" % number for number in range(1025)),
    1024 * b"0,",
    1024 * b",",
    b"0" + 1022 * b",0" + b",x",
    100_000 * b",",
    50_000 * b"7,",
    b"0" * 100_000 + b",",
    b"0,\xc2\xa01",
    b"0 ,1",
    b"0, 1",
    b" 0,1",
    b"0,1 ",
    b"0,1\n",
    b"0\n1",
    b"0,\xd9\xa1",
]

# words that name a file which can't be read, and the line on standard error; a word of two quotes is the empty one
UNREADABLE = [
    ("wbfs no_such_file", b"read fault: graph\n"),
    ("delta no_such_file --delta 1", b"read fault: graph\n"),
    ("kcore .", b"read fault: graph\n"),
    ("cover g/", b"read fault: graph\n"),
    ("cover ''", b"read fault: graph\n"),
    ("kcore -- --", b"read fault: graph\n"),
    ("kcore -- --chunk=1", b"read fault: graph\n"),
    ("check no_such_file g", b"read fault: graph\n"),
    ("check '' ''", b"read fault: graph\n"),
    ("check no_such_file no_such_file", b"read fault: graph\n"),
    ("upgrade no_such_file no_such_file", b"read fault: graph\n"),
    ("upgrade g no_such_file", b"read fault: witness\n"),
    ("upgrade g .", b"read fault: witness\n"),
    ("upgrade -- g --", b"read fault: witness\n"),
    ("check g no_such_file", b"read fault: witness\n"),
    ("check g .", b"read fault: witness\n"),
    ("check g ''", b"read fault: witness\n"),
    ("check -- g -x", b"read fault: witness\n"),
    (f"check g {'x' * 5000}", b"read fault: witness\n"),
]


def words_of(line):
    """The words of a line, where two quotes stand for the empty word."""
    return [b"" if word == b"''" else word for word in answers.words_of(line)]


def test(tally, folder):
    """All of them, with the graph in three files and on standard input."""
    files = {name: GRAPH for name in (b"g", b"-g", b"--bare", b"-")}
    files[b"w"] = CORES[1]
    for line, wanted in TAKEN:
        answers.compare(tally, folder, words_of(line), files, wanted)
    no_lists = [[task, b"g", *witness, b"--source", text] for text in NO_LISTS for task, *witness in ((b"wbfs",), (b"upgrade", b"w"))]
    for words in [[], *map(words_of, NOT_TAKEN.strip("\n").split("\n")), *NO_TEXT, *no_lists]:
        answers.compare(tally, folder, words, files, (2, b"", oracle.USAGE))
    for line, message in UNREADABLE:
        answers.compare(tally, folder, words_of(line), files, (5, b"", message))
    answers.compare(tally, folder, words_of("check g g"), files, (3, b"", b"witness: Header at token 0, byte 0\n"))
