"""What is told of a graph file that was read: its form, its sizes and a checksum of its lists, or its first fault."""
from .reading import Fault, Tokens, read_graph

MODULUS, BASE = 2**32 - 5, 1_000_003    # of a checksum


def checksum(numbers):
    """The numbers as the digits of one to the base, and the rest of that."""
    rest = 0
    for number in numbers:
        rest = (rest * BASE + number) % MODULUS
    return rest


def lists_of(rows, is_weighted):
    """The offsets, the targets and the weights of rows, behind one another."""
    offsets, places = [], 0
    for row in rows:
        offsets.append(places)
        places += len(row)
    weights = [weight for row in rows for _, weight in row] if is_weighted else []
    return offsets + [target for row in rows for target, _ in row] + weights


def told(text, limit):
    """The words about a graph file that may have so many bytes."""
    try:
        graph = read_graph(text, limit)
    except Fault as fault:
        return b"%s %d %d" % (fault.kind, fault.token, fault.at)
    is_weighted = Tokens(text).take() == b"WeightedAdjacencyGraph"
    form = b"weighted" if is_weighted else b"plain"
    return b"%s %d %d %d" % (form, len(graph), sum(map(len, graph)), checksum(lists_of(graph, is_weighted)))
