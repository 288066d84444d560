"""An independent implementation of what the program answers, written from the documents alone.

It shares no code with the crates, and where it can it takes another way than they do: files are split with a regular
expression, numbers are Python's, walks are found by one search with a heap over pairs of sum and length, cores by taking away
vertices for each bound in turn, covers by sets, and each reason of a checker is tried at each vertex as it is worded.

    reading.py        graph files, and witness files of both versions, with their faults
    definitions.py    symmetry, walks from the nearest source and parents, cores and levels, covers
    checking.py       what a checker tests
    generator.py      the generated graphs
    command_line.py   which words are taken, and what they ask for
    answering.py      the exit code and the bytes of both outputs
    telling.py        what is told of a graph file that was read
"""
from .answering import answer, columns
from .checking import verdict
from .command_line import USAGE
from .definitions import cover_lines, cores_lines, distances_lines, first_asymmetric_place
from .generator import generate
from .reading import MAX_BYTES, MAX_M, MAX_N, MAX_SOURCE, MAX_SOURCES, MAX_W, read_graph, read_witness
from .telling import told
