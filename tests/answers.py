"""Small files and words whose answers were worked out by hand, for the program and for the oracle."""
import oracle
import program

BLOCK = 65536       # bytes that the program asks for at a time

TAILED_TRIANGLE = b"AdjacencyGraph\n4\n8\n0\n2\n4\n7\n1\n2\n0\n2\n0\n1\n3\n2\n"
NO_VERTEX = b"AdjacencyGraph\n0\n0\n"
TWO_WAYS = b"WeightedAdjacencyGraph\r\n3 3\r\n0 2 2\t1 2 1\n5 1 2"
ZERO_RING = b"WeightedAdjacencyGraph 3 3 0 1 2 1 2 1 0 0 0"
APART = b"AdjacencyGraph 3 1 0 1 1 1"
LOWERED = b"WeightedAdjacencyGraph 4 4 0 2 3 4 1 2 3 1 9 1 5 6"
GREATEST_WEIGHTS = b"WeightedAdjacencyGraph 3 2 0 1 2 1 2 4294967295 4294967295"
LOOP = b"AdjacencyGraph 1 1 0 0"
DOUBLED = b"AdjacencyGraph 2 4 0 2 1 1 0 0"
ONE_WAY = b"AdjacencyGraph 2 1 0 1 1"
TWO_TRIANGLES = b"AdjacencyGraph 6 14 0 2 4 7 10 12 1 2 0 2 0 1 3 2 4 5 3 5 3 4"
TWO_SETS = b"AdjacencyGraph 5 4 0 2 4 4 4 2 3 3 4"
LATE_SET = b"AdjacencyGraph 9 8 0 4 8 8 8 8 8 8 8 4 5 6 7 5 6 7 8"
ZERO_RING_AND_FIVE = b"WeightedAdjacencyGraph 3 3 0 1 2 1 2 1 5 0 0"
WEIGHTED = b"WeightedAdjacencyGraph 2 1 0 1 1"
TWO_ROADS = b"AdjacencyGraph 4 4 0 2 3 4 1 2 3 3"
FEWER_HOPS = b"WeightedAdjacencyGraph 4 3 0 1 2 2 1 2 2 1 1 2"

# the text of the distances in LOWERED from the vertices 0 and 2, and the same columns in version 1
FROM_TWO = b"Distances2\n4 4\n2 0 2\n0 0 -\n6 1 2\n0 0 -\n11 2 1\n"
FROM_TWO_BEFORE = b"Distances 4 0 0 - 6 1 2 0 0 - 11 2 1"
CORES = b"Cores2\n4 8\n2 1\n2 1\n2 1\n1 0\n"

# words with g for the file, the file, standard output
SOLVED = [
    ("kcore g", TAILED_TRIANGLE, CORES),
    ("kcore g --bare", TAILED_TRIANGLE, b"2\n2\n2\n1\n"),
    ("kcore g", NO_VERTEX, b"Cores2\n0 0\n"),
    ("kcore g --bare", NO_VERTEX, b""),
    ("kcore g", LOOP, b"Cores2\n1 1\n1 0\n"),
    ("kcore g", DOUBLED, b"Cores2\n2 4\n2 0\n2 0\n"),
    ("kcore g", TWO_TRIANGLES, b"Cores2\n6 14\n2 0\n2 0\n2 1\n2 1\n2 0\n2 0\n"),
    ("kcore g", b"WeightedAdjacencyGraph 2 2 0 1 1 0 7 8", b"Cores2\n2 2\n1 0\n1 0\n"),
    ("wbfs g --source 0", TWO_WAYS, b"Distances2\n3 3\n1 0\n0 0 -\n3 2 2\n1 1 0\n"),
    ("wbfs g --source 0 --bare", TWO_WAYS, b"0\n3\n1\n"),
    ("wbfs g --source 1", TWO_WAYS, b"Distances2\n3 3\n1 1\n- - -\n0 0 -\n- - -\n"),
    ("wbfs g", ZERO_RING, b"Distances2\n3 3\n1 0\n0 0 -\n0 1 0\n0 2 1\n"),
    ("wbfs g", APART, b"Distances2\n3 1\n1 0\n0 0 -\n1 1 0\n- - -\n"),
    ("delta g --delta 10", LOWERED, b"Distances2\n4 4\n1 0\n0 0 -\n7 2 2\n1 1 0\n12 3 1\n"),
    ("delta g --delta 10 --bare", LOWERED, b"0\n7\n1\n12\n"),
    ("wbfs g", LOWERED, b"Distances2\n4 4\n1 0\n0 0 -\n7 2 2\n1 1 0\n12 3 1\n"),
    ("wbfs g", GREATEST_WEIGHTS, b"Distances2\n3 2\n1 0\n0 0 -\n4294967295 1 0\n8589934590 2 1\n"),
    ("delta g --delta 0004294967295", GREATEST_WEIGHTS, b"Distances2\n3 2\n1 0\n0 0 -\n4294967295 1 0\n8589934590 2 1\n"),
    ("wbfs g --source 2,0,2", LOWERED, FROM_TWO),
    ("wbfs g --source=0,2", LOWERED, FROM_TWO),
    ("delta g --source 002,00,2,0 --delta 3", LOWERED, FROM_TWO),
    ("delta g --source 2,0 --delta 100 --bare", LOWERED, b"0\n6\n0\n11\n"),
    ("wbfs g --source 3,1,0,2", LOWERED, b"Distances2\n4 4\n4 0 1 2 3\n0 0 -\n0 0 -\n0 0 -\n0 0 -\n"),
    ("wbfs g --source 1,1,1", LOWERED, b"Distances2\n4 4\n1 1\n- - -\n0 0 -\n- - -\n5 1 1\n"),
    ("wbfs g --source 2,1", TWO_WAYS, b"Distances2\n3 3\n2 1 2\n- - -\n0 0 -\n0 0 -\n"),
    ("wbfs g --source 1,0", ZERO_RING, b"Distances2\n3 3\n2 0 1\n0 0 -\n0 0 -\n0 1 1\n"),
    ("wbfs g --source 0,2", APART, b"Distances2\n3 1\n2 0 2\n0 0 -\n1 1 0\n0 0 -\n"),
    ("wbfs g --source 0,1", GREATEST_WEIGHTS, b"Distances2\n3 2\n2 0 1\n0 0 -\n0 0 -\n4294967295 1 1\n"),
    ("wbfs g --source 2,1", TWO_ROADS, b"Distances2\n4 4\n2 1 2\n- - -\n0 0 -\n0 0 -\n1 1 1\n"),
    ("wbfs g", FEWER_HOPS, b"Distances2\n4 3\n1 0\n0 0 -\n1 1 0\n2 2 1\n- - -\n"),
    ("wbfs g --source 0,3", FEWER_HOPS, b"Distances2\n4 3\n2 0 3\n0 0 -\n1 1 0\n2 1 3\n0 0 -\n"),
    ("wbfs g --source 0" + 1023 * ",0", LOOP, b"Distances2\n1 1\n1 0\n0 0 -\n"),
    ("cover g", LOOP, b"Cover2\n1 1\n0 0\n"),
    ("cover g", NO_VERTEX, b"Cover2\n0 0\n"),
    ("cover g", b"AdjacencyGraph 2 0 0 0", b"Cover2\n2 0\n- -\n- -\n"),
    ("cover g", TWO_SETS, b"Cover2\n5 4\n0 -\n0 -\n- 0\n- 0\n- 1\n"),
    ("cover g", LATE_SET, b"Cover2\n9 8\n0 -\n1 -\n- -\n- -\n- 0\n- 0\n- 0\n- 0\n- 1\n"),
    ("cover g --bare", LATE_SET, b"-\n-\n-\n-\n0\n0\n0\n0\n1\n"),
    ("wbfs g --bare", b"AdjacencyGraph " + b"0" * BLOCK + b"1 0 0", b"0\n"),
    ("wbfs g --bare", b" " * BLOCK + b"AdjacencyGraph 1 0 0" + b"\n" * BLOCK, b"0\n"),
]

# options that change no byte
SETTINGS = ["--workers 1", "--workers 2 --chunk 1", "--workers=7 --chunk=1 --open 1", "--workers 64 --chunk 65536",
            "--chunk 1 --open 65536", "--open=128 --workers=4 --chunk=256"]

# words, the file, the line on standard error of code 4
UNSUITED = [
    ("kcore g", ONE_WAY, b"asymmetric at place 0\n"),
    ("kcore g", TWO_WAYS, b"asymmetric at place 0\n"),
    ("kcore g", b"AdjacencyGraph 3 5 0 2 3 1 2 0 0 0", b"asymmetric at place 3\n"),
    ("kcore g --bare", TWO_SETS, b"asymmetric at place 0\n"),
    ("wbfs g --source 3", TWO_WAYS, b"source 3 is not below 3\n"),
    ("wbfs g --source 007", TWO_WAYS, b"source 7 is not below 3\n"),
    ("delta g --source 4294967295 --delta 1", TWO_WAYS, b"source 4294967295 is not below 3\n"),
    ("wbfs g", NO_VERTEX, b"source 0 is not below 0\n"),
    ("delta g --delta 5 --bare", NO_VERTEX, b"source 0 is not below 0\n"),
    ("wbfs g --source 9,0,7", LOWERED, b"source 7 is not below 4\n"),
    ("wbfs g --source 0,4,2", LOWERED, b"source 4 is not below 4\n"),
    ("delta g --source 4294967295,4,3,4 --delta 2 --bare", LOWERED, b"source 4 is not below 4\n"),
]

# a graph file, and the line on standard error of code 3
FAULTS = [
    (b"", b"graph: Truncated at token 0, byte 0\n"),
    (b"adjacencygraph 1 0 0", b"graph: Header at token 0, byte 0\n"),
    (b"AdjacencyGraph -1 0", b"graph: BadNumber at token 1, byte 15\n"),
    (b"AdjacencyGraph 16777217 0", b"graph: TooManyVertices at token 1, byte 15\n"),
    (b"AdjacencyGraph 1 134217729 0", b"graph: TooManyEdges at token 2, byte 17\n"),
    (b"AdjacencyGraph 1 0 5", b"graph: FirstOffset at token 3, byte 19\n"),
    (b"AdjacencyGraph 3 2 0 9 1 0 0", b"graph: OffsetRange at token 4, byte 21\n"),
    (b"AdjacencyGraph 3 2 0 2 1 0 0", b"graph: OffsetOrder at token 5, byte 23\n"),
    (b"AdjacencyGraph 2 1 0 1 2", b"graph: TargetRange at token 5, byte 23\n"),
    (WEIGHTED + b" -3", b"graph: NegativeWeight at token 6, byte 33\n"),
    (WEIGHTED + b" -0", b"graph: NegativeWeight at token 6, byte 33\n"),
    (WEIGHTED + b" 4294967296", b"graph: WeightRange at token 6, byte 33\n"),
    (WEIGHTED, b"graph: Truncated at token 6, byte 32\n"),
    (b"AdjacencyGraph 2 1 0 1 1 7", b"graph: Trailing at token 6, byte 25\n"),
    (b"AdjacencyGraph 0 1", b"graph: Truncated at token 3, byte 18\n"),
    (b"AdjacencyGraph 0 1 0", b"graph: TargetRange at token 3, byte 19\n"),
    (b"AdjacencyGraph" + b" " * BLOCK + b"x", b"graph: BadNumber at token 1, byte 65550\n"),
    (b"AdjacencyGraph 0 0 " + b"7" * BLOCK, b"graph: Trailing at token 3, byte 19\n"),
]
READERS = ["wbfs g", "delta g --delta 1", "kcore g", "cover g", "check g w", "upgrade g w", "wbfs g --source 9 --bare"]

YES = (0, b"yes\n", b"")

# words, graph, witness, exit code, standard output, standard error
CHECKS = [
    ("check g w", TAILED_TRIANGLE, b"Cores\n4\n2 1\n2 1\n2 1\n1 0\n", *YES),
    ("check g w", TAILED_TRIANGLE, b"\tCores 0004\r\n2 1 02 1 2 1 1\n\n0", *YES),
    ("check g w", TAILED_TRIANGLE, b"Cores\n4\n2 1\n2 1\n2 1\n2 0\n", 1, b"no 3 LowerBound\n", b""),
    ("check g w", TAILED_TRIANGLE, b"Cores 4 0 0 0 0 0 0 0 0", 1, b"no 0 UpperBound\n", b""),
    ("check g w", TAILED_TRIANGLE, b"Cores 4 2 0 2 0 2 0 1 1", 1, b"no 3 Order\n", b""),
    ("check g w --source 9", LOOP, b"Cores 1 1 7", *YES),
    ("check g w", NO_VERTEX, b"Cover 0", *YES),
    ("check g w", NO_VERTEX, b"Cores 0", *YES),
    ("check g w --source 0", TWO_WAYS, b"Distances\n3\n0 0 -\n3 2 2\n1 1 0\n", *YES),
    ("check g w --source 1", TWO_WAYS, b"Distances\n3\n- - -\n0 0 -\n- - -\n", *YES),
    ("check g w", TWO_WAYS, b"Distances\n3\n0 0 -\n5 1 0\n1 1 0\n", 1, b"no 2 Lowerable\n", b""),
    ("check g w", TWO_WAYS, b"Distances\n3\n0 0 -\n2 2 2\n1 1 0\n", 1, b"no 1 Parent\n", b""),
    ("check g w", TWO_WAYS, b"Distances\n3\n0 1 -\n3 2 2\n1 1 0\n", 1, b"no 0 Source\n", b""),
    ("check g w", ZERO_RING_AND_FIVE, b"Distances 3 0 0 - 3 1 2 3 2 1", 1, b"no 1 Parent\n", b""),
    ("check g w", APART, b"Distances 3 0 0 - 1 1 0 - - 1", 1, b"no 2 Unreached\n", b""),
    ("check g w", TWO_SETS, b"Cover\n5\n0 -\n0 -\n- 0\n- 0\n- 1\n", *YES),
    ("check g w", TWO_SETS, b"Cover\n5\n0 -\n0 -\n- 0\n- 0\n- 0\n", 1, b"no 4 NotHeld\n", b""),
    ("check g w", TWO_SETS, b"Cover\n5\n0 -\n0 -\n- 0\n- 5\n- 1\n", 1, b"no 3 NotCovered\n", b""),
    ("check g w", TWO_SETS, b"Cover\n5\n0 -\n- -\n- 0\n- 0\n- 1\n", 1, b"no 4 NotChosen\n", b""),
    ("check g w", TWO_SETS, b"Cover\n5\n0 0\n0 -\n- 0\n- 0\n- 1\n", 1, b"no 0 NoElement\n", b""),
    ("check g w", LOOP, b"", 3, b"", b"witness: Truncated at token 0, byte 0\n"),
    ("check g w", LOOP, b"cores 1 1 0", 3, b"", b"witness: Header at token 0, byte 0\n"),
    ("check g w", LOOP, b"1\n", 3, b"", b"witness: Header at token 0, byte 0\n"),
    ("check g w", LOOP, b"Cores 1 x 0", 3, b"", b"witness: Number at token 2, byte 8\n"),
    ("check g w", LOOP, b"Cores 1 - 0", 3, b"", b"witness: Number at token 2, byte 8\n"),
    ("check g w", LOOP, b"Cores 1 1 18446744073709551615", 3, b"", b"witness: Number at token 3, byte 10\n"),
    ("check g w", LOOP, b"Cores 16777217 x", 3, b"", b"witness: Number at token 1, byte 6\n"),
    ("check g w", LOOP, b"Cores 1 1", 3, b"", b"witness: Truncated at token 3, byte 9\n"),
    ("check g w", LOOP, b"Cores 1 1 0 0", 3, b"", b"witness: Trailing at token 4, byte 12\n"),
    ("check g w --source 2", b"WeightedAdjacencyGraph 3 1 0 1 1 1 4294967295",
     b"Distances 3 18446744073709551614 1 2 18446744073709551614 1 2 0 0 -", 1, b"no 0 Parent\n", b""),
    ("check g w", TAILED_TRIANGLE, b"Cores 0", 4, b"", b"witness size 0, graph size 4\n"),
    ("check g w --source 9", LOOP, b"Distances 2 0 0 - 0 0 -", 4, b"", b"witness size 2, graph size 1\n"),
    ("check g w", NO_VERTEX, b"Distances 0", 4, b"", b"source 0 is not below 0\n"),
    ("check g w --source 1", LOOP, b"Distances 1 0 0 -", 4, b"", b"source 1 is not below 1\n"),
    ("check g w", WEIGHTED, b"", 3, b"", b"graph: Truncated at token 6, byte 32\n"),
    ("check g w --source 0,2", LOWERED, FROM_TWO_BEFORE, *YES),
    ("check g w --source 2,2,0", LOWERED, FROM_TWO_BEFORE, *YES),
    ("check g w", LOWERED, FROM_TWO_BEFORE, 1, b"no 2 Parent\n", b""),
    ("check g w --source 2", LOWERED, FROM_TWO_BEFORE, 1, b"no 0 Parent\n", b""),
    ("check g w --source 0,1", LOWERED, FROM_TWO_BEFORE, 1, b"no 1 Source\n", b""),
    ("check g w --source 9,0,7", LOWERED, FROM_TWO_BEFORE, 4, b"", b"source 7 is not below 4\n"),
]

# the same for witnesses that name their places and sources
NEWER_CHECKS = [
    ("check g w", TAILED_TRIANGLE, CORES, *YES),
    ("check g w --source 9,0", TAILED_TRIANGLE, b"\tCores2 0004\r\n008\n2 1 02 1 2 1 1\n\n0", *YES),
    ("check g w", NO_VERTEX, b"Cores2 0 0", *YES),
    ("check g w", NO_VERTEX, b"Cover2\n0 0\n", *YES),
    ("check g w", TWO_SETS, b"Cover2\n5 4\n0 -\n0 -\n- 0\n- 0\n- 1\n", *YES),
    ("check g w", LOWERED, FROM_TWO, *YES),
    ("check g w --source 0,2", LOWERED, FROM_TWO, *YES),
    ("check g w --source 2,0,00,2", LOWERED, FROM_TWO, *YES),
    ("check g w", LOWERED, b"Distances2 4 4 002 0 2 0 0 - 6 1 2 0 0 - 11 2 1", *YES),
    ("check g w", TAILED_TRIANGLE, b"Cores2 4 8 2 1 2 1 2 1 2 0", 1, b"no 3 LowerBound\n", b""),
    ("check g w", LOWERED, b"Distances2 4 4 2 0 2 0 0 - 6 1 2 0 0 - 12 2 1", 1, b"no 1 Lowerable\n", b""),
    ("check g w", LOWERED, b"Distances2 4 4 1 0 0 0 - 6 1 2 0 0 - 11 2 1", 1, b"no 2 Parent\n", b""),
    ("check g w", LOWERED, b"Distances2 4 4 1 2 0 0 - 6 1 2 0 0 - 11 2 1", 1, b"no 0 Parent\n", b""),
    ("check g w", LOWERED, b"Distances2 4 4 3 0 1 2 0 0 - 6 1 2 0 0 - 11 2 1", 1, b"no 1 Source\n", b""),
    ("check g w", TWO_SETS, b"Cover2 5 4 0 - 0 - - 0 - 0 - 0", 1, b"no 4 NotHeld\n", b""),
    ("check g w", TAILED_TRIANGLE, b"Cores2 0 8", 4, b"", b"witness size 0, graph size 4\n"),
    ("check g w", TAILED_TRIANGLE, b"Cores2 0 7", 4, b"", b"witness size 0, graph size 4\n"),
    ("check g w --source 5", LOOP, b"Distances2 2 7 1 9 0 0 - 0 0 -", 4, b"", b"witness size 2, graph size 1\n"),
    ("check g w", TAILED_TRIANGLE, b"Cores2 4 7 2 1 2 1 2 1 1 0", 4, b"", b"witness places 7, graph places 8\n"),
    ("check g w", TAILED_TRIANGLE, b"Cores2 4 134217728 0 0 0 0 0 0 0 0", 4, b"", b"witness places 134217728, graph places 8\n"),
    ("check g w", TWO_SETS, b"Cover2 5 0 0 - 0 - - 0 - 0 - 0", 4, b"", b"witness places 0, graph places 4\n"),
    ("check g w --source 0", LOWERED, b"Distances2 4 5 1 2 0 0 - - - - - - - - - -", 4, b"", b"witness places 5, graph places 4\n"),
    ("check g w", LOWERED, b"Distances2 4 5 1 9 0 0 - - - - - - - - - -", 4, b"", b"witness places 5, graph places 4\n"),
    ("check g w --source 0", LOWERED, FROM_TWO, 4, b"", b"sources differ at entry 1\n"),
    ("check g w --source 2", LOWERED, FROM_TWO, 4, b"", b"sources differ at entry 0\n"),
    ("check g w --source 0,3", LOWERED, FROM_TWO, 4, b"", b"sources differ at entry 1\n"),
    ("check g w --source 1,2", LOWERED, FROM_TWO, 4, b"", b"sources differ at entry 0\n"),
    ("check g w --source 3,2,0", LOWERED, FROM_TWO, 4, b"", b"sources differ at entry 2\n"),
    ("check g w --source 9,2,0", LOWERED, FROM_TWO, 4, b"", b"sources differ at entry 2\n"),
    ("check g w --source 0", LOWERED, b"Distances2 4 4 1 9 1 1 1 - - - - - - - - -", 4, b"", b"sources differ at entry 0\n"),
    ("check g w", LOWERED, b"Distances2 4 4 1 9 1 1 1 - - - - - - - - -", 4, b"", b"source 9 is not below 4\n"),
    ("check g w --source 9,0,7", LOWERED, b"Distances2 4 4 3 0 7 9 1 1 1 - - - - - - - - -", 4, b"", b"source 7 is not below 4\n"),
    ("check g w", LOWERED, b"Distances2 4 4 2 4 4294967295 1 1 1 - - - - - - - - -", 4, b"", b"source 4 is not below 4\n"),
    ("check g w", NO_VERTEX, b"Distances2 0 0 1 0", 4, b"", b"source 0 is not below 0\n"),
]

# a witness, and the line on standard error of code 3 on LOWERED
WITNESS_FAULTS = [
    (b"cores2 4 4", b"witness: Header at token 0, byte 0\n"),
    (b"Cores1 4 4", b"witness: Header at token 0, byte 0\n"),
    (b"Cover22 4 4", b"witness: Header at token 0, byte 0\n"),
    (b"Distances02 4 4", b"witness: Header at token 0, byte 0\n"),
    (b"Distances 2 4 4 2 0 2", b"witness: Truncated at token 7, byte 21\n"),
    (b"Cores2", b"witness: Truncated at token 1, byte 6\n"),
    (b"Cores2 16777217", b"witness: Number at token 1, byte 7\n"),
    (b"Cores2 16777216", b"witness: Truncated at token 2, byte 15\n"),
    (b"Cores2 - 4", b"witness: Number at token 1, byte 7\n"),
    (b"Cover2 4 -", b"witness: Number at token 2, byte 9\n"),
    (b"Cover2 4 134217729", b"witness: Number at token 2, byte 9\n"),
    (b"Cover2 4 134217728", b"witness: Truncated at token 3, byte 18\n"),
    (b"Cores2 1 4 1 -", b"witness: Number at token 4, byte 13\n"),
    (b"Cores2 1 4 1 18446744073709551615", b"witness: Number at token 4, byte 13\n"),
    (b"Cores2 1 4 1 1 7", b"witness: Trailing at token 5, byte 15\n"),
    (b"Distances2 4 4", b"witness: Truncated at token 3, byte 14\n"),
    (b"Distances2 4 4 0", b"witness: Number at token 3, byte 15\n"),
    (b"Distances2 4 4 - 0", b"witness: Number at token 3, byte 15\n"),
    (b"Distances2 4 4 1025 0 x", b"witness: Number at token 3, byte 15\n"),
    (b"Distances2 4 4 1024", b"witness: Truncated at token 4, byte 19\n"),
    (b"Distances2 4 4 1 -", b"witness: Number at token 4, byte 17\n"),
    (b"Distances2 4 4 1 4294967296", b"witness: Number at token 4, byte 17\n"),
    (b"Distances2 4 4 1 4294967295", b"witness: Truncated at token 5, byte 27\n"),
    (b"Distances2 4 4 2 2 2", b"witness: SourceOrder at token 5, byte 19\n"),
    (b"Distances2 4 4 2 2 1 x", b"witness: SourceOrder at token 5, byte 19\n"),
    (b"Distances2 4 4 3 0 2 1", b"witness: SourceOrder at token 6, byte 21\n"),
    (b"Distances2 4 4 3 2 2 x", b"witness: SourceOrder at token 5, byte 19\n"),
    (b"Distances2 4 4 2 2 x", b"witness: Number at token 5, byte 19\n"),
    (b"Distances2 4 4 2 2 -", b"witness: Number at token 5, byte 19\n"),
    (b"Distances2 4 4 2 2", b"witness: Truncated at token 5, byte 18\n"),
    (b"Distances2 4 4 1 2 18446744073709551615", b"witness: Number at token 5, byte 19\n"),
    (b"Distances2 0 4 1 2 0", b"witness: Trailing at token 5, byte 19\n"),
]

# words of an upgrade, graph, witness, the text
UPGRADES = [
    ("upgrade g w", TAILED_TRIANGLE, b"Cores 4 2 1 2 1 2 1 1 0", CORES),
    ("upgrade g w --source 9", TAILED_TRIANGLE, b"\tCores 0004\r\n2 1 02 1 2 1 1\n\n0", CORES),
    ("upgrade g w", TAILED_TRIANGLE, b"Cores2 4 8 2 1 2 1 2 1 1 0", CORES),
    ("upgrade g w", LOOP, b"Cores 1 1 18446744073709551614", b"Cores2\n1 1\n1 18446744073709551614\n"),
    ("upgrade g w", NO_VERTEX, b"Cores 0", b"Cores2\n0 0\n"),
    ("upgrade g w", NO_VERTEX, b"Cover 0", b"Cover2\n0 0\n"),
    ("upgrade g w", TWO_SETS, b"Cover 5 7 - 0 - - 0 0 0 - 1", b"Cover2\n5 4\n7 -\n0 -\n- 0\n0 0\n- 1\n"),
    ("upgrade g w", TWO_ROADS, b"Distances 4 0 0 - 1 1 0 1 1 0 2 2 2", b"Distances2\n4 4\n1 0\n0 0 -\n1 1 0\n1 1 0\n2 2 2\n"),
    ("upgrade g w --source 0", TWO_ROADS, b"Distances2 4 4 01 0 0 0 - 1 1 0 1 1 0 2 2 2",
     b"Distances2\n4 4\n1 0\n0 0 -\n1 1 0\n1 1 0\n2 2 2\n"),
    ("upgrade g w --source=1", TWO_WAYS, b"Distances\n3\n- - -\n0 0 -\n- - -\n", b"Distances2\n3 3\n1 1\n- - -\n0 0 -\n- - -\n"),
    ("upgrade g w --source 2,0,2", LOWERED, FROM_TWO_BEFORE, FROM_TWO),
    ("upgrade g w", LOWERED, FROM_TWO, FROM_TWO),
    ("upgrade g w --source 2,0", LOWERED, b" ".join(FROM_TWO.split()), FROM_TWO),
]

# words, exit code, standard output, standard error
DEMOS = [
    ("demo kcore --n 1 --pairs 3 --seed 7", 0, b"kcore n 1 m 6 max 6 top 1\n", b""),
    ("demo wbfs --n 5 --pairs 0 --seed 0", 0, b"wbfs n 5 m 0 reached 1 max 0\n", b""),
    ("demo cover --n 1 --pairs 3 --seed 7", 0, b"cover n 1 m 6 chosen 1 covered 1\n", b""),
    ("demo delta --delta 5 --n 5 --pairs 0 --seed 0", 0, b"delta n 5 m 0 reached 1 max 0\n", b""),
    ("demo kcore --n 3 --pairs 0 --seed 18446744073709551615", 0, b"kcore n 3 m 0 max 0 top 3\n", b""),
    ("demo cover --n 2 --pairs 0 --seed 0", 0, b"cover n 2 m 0 chosen 0 covered 0\n", b""),
    ("demo wbfs --n 5 --pairs 0 --seed 0 --source 9", 4, b"", b"source 9 is not below 5\n"),
    ("demo delta --n 5 --pairs 9 --seed 0 --source 5 --delta 3", 4, b"", b"source 5 is not below 5\n"),
    ("demo wbfs --n 5 --pairs 0 --seed 0 --source 4,0,4", 0, b"wbfs n 5 m 0 reached 2 max 0\n", b""),
    ("demo delta --n 5 --pairs 0 --seed 0 --source 3,2,1 --delta 3", 0, b"delta n 5 m 0 reached 3 max 0\n", b""),
    ("demo wbfs --n 5 --pairs 0 --seed 0 --source 9,0,7", 4, b"", b"source 7 is not below 5\n"),
]


def words_of(text):
    """The words of a line, as bytes."""
    return text.encode().split(b" ") if text else []


def compare(tally, folder, words, files, wanted):
    """Compares what the program answers, and what the oracle does, with what was worked out by hand."""
    for name in files.keys() - {b"-"}:
        program.write(folder, name.decode(), files[name])
    what = f"words {words}, files {files}"
    tally.compare(what, program.run(words, files.get(b"-", b""), folder), wanted)
    tally.compare(f"the oracle on {what}", oracle.answer(words, files), wanted)


def compare_on_both(tally, folder, words, graph, wanted):
    """Compares the answer to a graph in a file, and to the same one on standard input."""
    for name in (b"g", b"-"):
        compare(tally, folder, [name if word == b"g" else word for word in words], {name: graph}, wanted)


def compare_again(tally, folder, graph, text):
    """Compares what comes of a whole text by a check and by an upgrade, without sources."""
    for task, out in ((b"check", b"yes\n"), (b"upgrade", text)):
        compare(tally, folder, [task, b"g", b"w"], {b"g": graph, b"w": text}, (0, out, b""))


def test_solved(tally, folder):
    """Each text with the options that change no byte, its check and its upgrade."""
    for line, graph, text in SOLVED:
        compare_on_both(tally, folder, words_of(line), graph, (0, text, b""))
        for settings in SETTINGS:
            compare(tally, folder, words_of(settings) + words_of(line), {b"g": graph}, (0, text, b""))
        if "--bare" not in line:
            compare_again(tally, folder, graph, text)


def test_refused(tally, folder):
    """Graphs that a task isn't suited to, and files that are no graphs."""
    for line, graph, message in UNSUITED:
        compare_on_both(tally, folder, words_of(line), graph, (4, b"", message))
    for graph, message in FAULTS:
        for line in READERS:
            compare_on_both(tally, folder, words_of(line), graph, (3, b"", message))


def compare_judged(tally, folder, words, graph, witness, wanted):
    """Compares the answer to a graph and a witness in files, and with each of them on standard input."""
    for names in ((b"g", b"w"), (b"-", b"w"), (b"g", b"-")):
        named = [{b"g": names[0], b"w": names[1]}.get(word, word) for word in words]
        compare(tally, folder, named, dict(zip(names, (graph, witness))), wanted)


def test_checks(tally, folder):
    """Verdicts and refusals of the checker; where it doesn't say yes, an upgrade answers the same."""
    faults = [("check g w", LOWERED, witness, 3, b"", message) for witness, message in WITNESS_FAULTS]
    for line, graph, witness, *wanted in CHECKS + NEWER_CHECKS + faults:
        check, *words = words_of(line)
        compare_judged(tally, folder, [check, *words], graph, witness, tuple(wanted))
        if tuple(wanted) != YES:
            compare_judged(tally, folder, [b"upgrade", *words], graph, witness, tuple(wanted))


def test_upgrades(tally, folder):
    """Texts that are written anew, and what comes of them."""
    for line, graph, witness, text in UPGRADES:
        compare_judged(tally, folder, words_of(line), graph, witness, (0, text, b""))
        compare_again(tally, folder, graph, text)


def test_demos(tally, folder):
    """Summaries of generated graphs."""
    for line, *wanted in DEMOS:
        for settings in ["", *SETTINGS]:
            compare(tally, folder, words_of(line) + words_of(settings), {}, tuple(wanted))


def test(tally, folder):
    """All of them."""
    test_solved(tally, folder)
    test_refused(tally, folder)
    test_checks(tally, folder)
    test_upgrades(tally, folder)
    test_demos(tally, folder)
