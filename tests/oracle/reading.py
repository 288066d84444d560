"""The files: tokens, numbers, graphs and witnesses, each with its first fault."""
import re
from collections import namedtuple

MAX_N, MAX_M, MAX_W = 2**24, 2**27, 2**32 - 1
MAX_BYTES = 2**32
MAX_SOURCES, MAX_SOURCE = 1024, 2**32 - 1
GREATEST = 2**64 - 2        # the greatest number of a column
COLUMNS = {b"Cores": 2, b"Distances": 3, b"Cover": 2}

# word is that of version 1; places and sources are None where the text names none; the lines are numbers, None for a dash
Witness = namedtuple("Witness", "word places sources lines")


class Fault(Exception):
    """The first fault of a file: its kind, the number of its token and the byte at which that begins."""

    def __init__(self, kind, token, at):
        super().__init__(kind)
        self.kind, self.token, self.at = kind.encode(), token, at
        self.place = b"%s at token %d, byte %d\n" % (self.kind, token, at)


def is_number(token):
    """Whether a token is one or more digits."""
    return re.fullmatch(rb"[0-9]+", token) is not None


def value(token):
    """The number that digits name, or another one far above each bound: Python reads no number of many thousand digits."""
    return int(token.lstrip(b"0")[:40] or b"0")


class Tokens:
    """The tokens of a text, taken one after another, and the faults of the one taken last."""

    def __init__(self, text):
        self.matches = re.finditer(rb"[^ \t\r\n]+", text)
        self.length = len(text)
        self.taken = 0
        self.last = None

    def take(self):
        """The next token."""
        match = next(self.matches, None)
        if match is None:
            raise Fault("Truncated", self.taken, self.length)
        self.taken += 1
        self.last = match
        return match.group()

    def number(self):
        """The number of a graph that is the next token."""
        token = self.take()
        if not is_number(token):
            raise self.fault("BadNumber")
        return value(token)

    def fault(self, kind):
        """A fault at the token taken last."""
        return Fault(kind, self.taken - 1, self.last.start())

    def end(self):
        """Refuses a token that follows."""
        self.last = next(self.matches, None)
        if self.last is not None:
            self.taken += 1
            raise self.fault("Trailing")


def read_size(tokens):
    """The numbers of vertices and of places."""
    n = tokens.number()
    if n > MAX_N:
        raise tokens.fault("TooManyVertices")
    m = tokens.number()
    if m > MAX_M:
        raise tokens.fault("TooManyEdges")
    return n, m


def read_offsets(tokens, n, m):
    """The place at which each row begins."""
    offsets = []
    for index in range(n):
        offset = tokens.number()
        if index == 0 and offset != 0:
            raise tokens.fault("FirstOffset")
        if offset > m:
            raise tokens.fault("OffsetRange")
        if index > 0 and offset < offsets[-1]:
            raise tokens.fault("OffsetOrder")
        offsets.append(offset)
    return offsets


def read_target(tokens, n):
    """The target of the next place."""
    target = tokens.number()
    if target >= n:
        raise tokens.fault("TargetRange")
    return target


def read_weight(tokens):
    """The weight of the next place."""
    token = tokens.take()
    if re.fullmatch(rb"-[0-9]+", token):
        raise tokens.fault("NegativeWeight")
    if not is_number(token):
        raise tokens.fault("BadNumber")
    if value(token) > MAX_W:
        raise tokens.fault("WeightRange")
    return value(token)


def read_graph(text, limit=MAX_BYTES):
    """The rows of a graph file as lists of (target, weight), or its first fault; the limit is the most bytes that it may have."""
    if len(text) > limit:
        raise Fault("TooLong", 0, limit)
    tokens = Tokens(text)
    header = tokens.take()
    if header not in (b"AdjacencyGraph", b"WeightedAdjacencyGraph"):
        raise tokens.fault("Header")
    n, m = read_size(tokens)
    offsets = read_offsets(tokens, n, m)
    targets = [read_target(tokens, n) for _ in range(m)]
    weights = [1] * m
    if header.startswith(b"Weighted"):
        weights = [read_weight(tokens) for _ in range(m)]
    tokens.end()
    ends = offsets[1:] + [m]
    return [list(zip(targets[a:b], weights[a:b])) for a, b in zip(offsets, ends)]


def read_between(tokens, least, greatest):
    """The number of a witness that is the next token."""
    token = tokens.take()
    if not is_number(token) or not least <= value(token) <= greatest:
        raise tokens.fault("Number")
    return value(token)


def read_entry(tokens, has_dash):
    """The entry of a column that is the next token, None for a dash where one may stand."""
    token = tokens.take()
    if token == b"-" and has_dash:
        return None
    if not is_number(token) or value(token) > GREATEST:
        raise tokens.fault("Number")
    return value(token)


def read_sources(tokens):
    """The sources that a witness names."""
    sources = []
    for _ in range(read_between(tokens, 1, MAX_SOURCES)):
        source = read_between(tokens, 0, MAX_SOURCE)
        if sources and source <= sources[-1]:
            raise tokens.fault("SourceOrder")
        sources.append(source)
    return sources


def read_witness(text):
    """The witness that a text is, or its first fault."""
    tokens = Tokens(text)
    head = tokens.take()
    is_newer = head.endswith(b"2")
    word = head[:-1] if is_newer else head
    if word not in COLUMNS:
        raise tokens.fault("Header")
    n = read_between(tokens, 0, MAX_N)
    places = read_between(tokens, 0, MAX_M) if is_newer else None
    sources = read_sources(tokens) if is_newer and word == b"Distances" else None
    lines = [[read_entry(tokens, word != b"Cores") for _ in range(COLUMNS[word])] for _ in range(n)]
    tokens.end()
    return Witness(word, places, sources, lines)
