"""The README of examples/: each command in it, and its table of graphs."""
import os
import re
import subprocess

import oracle
import program
import texts

FOLDER = os.path.join(program.TOP, "examples")
STARTER = os.path.join(program.TOP, "bin", "julienne")
NO_DATA = {"README.md", "edge_list.py"}


def read(name, folder=FOLDER):
    """The bytes of a file."""
    with open(os.path.join(folder, name), "rb") as file:
        return file.read()


def commands(readme):
    """The commands of the console blocks and the text that stands below each."""
    for block in re.findall(r"^```console\n(.*?)^```$", readme, re.M | re.S):
        for part in re.split(r"^\$ ", block, flags=re.M)[1:]:
            yield part.split("\n", 1)


def graphs_of_table(readme):
    """Name, vertices, places and symmetry of each graph of the table."""
    rows = re.findall(r"^\| `(\S+)` \|.*\| (\d+) \| (\d+) \| (yes|no) \|$", readme, re.M)
    return [(name, int(n), int(m), symmetric == "yes") for name, n, m, symmetric in rows]


def bring_up_to_date():
    """Starts bin/julienne once: where a source is newer than the program, it says so and builds before it answers."""
    subprocess.run([STARTER], stdin=subprocess.DEVNULL, capture_output=True)


def run_in_shell(command, folder):
    """What a command prints, where folder stands in place of /tmp."""
    done = subprocess.run(["sh", "-c", command.replace("/tmp/", folder + "/")], cwd=program.TOP, stdin=subprocess.DEVNULL,
                          stdout=subprocess.PIPE, stderr=subprocess.STDOUT, timeout=program.LONGEST)
    return done.stdout.decode().replace(folder + "/", "/tmp/")


def test_table(tally, readme):
    """The table's sizes, and that it has each graph of the folder."""
    table = graphs_of_table(readme)
    for name, *facts in table:
        rows = oracle.read_graph(read(name))
        tally.compare(f"the table's line of {name}", [len(rows), sum(map(len, rows)), oracle.first_asymmetric_place(rows) is None], facts)
    graphs = {name for name in os.listdir(FOLDER) if name.endswith("adj")}
    tally.compare("the graphs of the table", {name for name, *_ in table}, graphs)


def test_commands(tally, folder, readme):
    """What each command prints, and that each file is used by one."""
    run = list(commands(readme))
    for command, wanted in run:
        tally.compare(command, run_in_shell(command, folder), wanted)
    unused = {name for name in os.listdir(FOLDER) if not any(f"examples/{name}" in command for command, _ in run)}
    tally.compare("files that no command uses", unused - NO_DATA, set())


def test_results(tally):
    """The three results are those that the tests find by searches of their own, the last one in version 1."""
    club, roads = (oracle.read_graph(read(name)) for name in ("karate_club.adj", "swiss_roads.wadj"))
    cores = texts.witness("Cores", oracle.cores_lines(club), sum(map(len, club)))
    tally.compare("the cores of the club", read("karate_club.cores"), cores)
    tree = texts.witness("Distances", oracle.distances_lines(roads, [0]), sum(map(len, roads)), [0])
    tally.compare("the distances from Bern", read("swiss_roads.distances"), tree)
    before = texts.plain(texts.witness_tokens("Distances", oracle.distances_lines(roads, [9])))
    tally.compare("the distances from Chur", read("swiss_roads_from_chur.distances").split(), before.split())


def test_list(tally, folder, readme):
    """The graph that a command made of the list is that of the roads, up to the order within rows; so are the names."""
    made, kept = oracle.read_graph(read("roads.wadj", folder)), oracle.read_graph(read("swiss_roads.wadj"))
    tally.compare("the graph of the list", [sorted(row) for row in made], [sorted(row) for row in kept])
    names = ", ".join(read("roads.wadj.names", folder).decode().splitlines())
    tally.compare("the towns of the table", re.search(r"in kilometers: (.*?) \|", readme).group(1), names)


def test_starter(tally, folder):
    """bin/julienne from another folder, by way of a link, and with an answer that isn't 0."""
    link = os.path.join(folder, "link")
    os.symlink(STARTER, link)
    program.write(folder, "g", read("chain.adj"))
    for name in (STARTER, link, os.path.relpath(STARTER, os.path.realpath(folder))):
        for words, wanted in ((["0", "g"], (0, b"0\n1\n2\n3\n4\n5\n", b"")),
                              (["6", "-"], (4, b"", b"source 6 is not below 6\n"))):
            done = subprocess.run([name, "wbfs", "--bare", "--source", *words], input=read("chain.adj"), capture_output=True,
                                  cwd=folder, timeout=program.LONGEST)
            tally.compare(f"{name} {words}", (done.returncode, done.stdout, done.stderr), wanted)


def test(tally, folder):
    """All of them."""
    readme = read("README.md").decode()
    bring_up_to_date()
    test_table(tally, readme)
    test_commands(tally, folder, readme)
    test_results(tally)
    test_list(tally, folder, readme)
    test_starter(tally, folder)
