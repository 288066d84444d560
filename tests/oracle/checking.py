"""What a checker tests: the first reason of a table that a vertex of a witness fails, as it is worded."""


def cores_reasons(rows, witness, _):
    """The first reason that a vertex of a witness of cores fails, as a function of the vertex."""

    def order(v):
        return witness[v][1], v

    greatest, greatest_before = -1, {}
    for v in sorted(range(len(rows)), key=order):
        greatest_before[v] = greatest
        greatest = max(greatest, witness[v][0])

    def reason(v):
        core = witness[v][0]
        row = [target for target, _ in rows[v]]
        if sum(1 for x in row if witness[x][0] >= core) < core:
            return b"LowerBound"
        if sum(1 for x in row if not order(x) < order(v)) > core:
            return b"UpperBound"
        if greatest_before[v] > core:
            return b"Order"
        return None

    return reason


def distances_reasons(rows, witness, sources):
    """The first reason that a vertex of a witness of distances fails, as a function of the vertex."""

    def is_held(v):
        dist, hops, parent = witness[v]
        if hops is None or parent is None or parent >= len(rows):
            return False
        above, hops_above, _ = witness[parent]
        if above is None or hops_above is None or hops_above + 1 != hops:
            return False
        return any(x == v and above + w == dist for x, w in rows[parent])

    def reason(v):
        dist, hops, parent = witness[v]
        is_source = v in sources
        if is_source and (dist, hops, parent) != (0, 0, None):
            return b"Source"
        if dist is not None and any(witness[x][0] is None or witness[x][0] > dist + w for x, w in rows[v]):
            return b"Lowerable"
        if not is_source and dist is not None and not is_held(v):
            return b"Parent"
        if not is_source and dist is None and (hops is not None or parent is not None):
            return b"Unreached"
        return None

    return reason


def cover_reasons(rows, witness, _):
    """The first reason that a vertex of a witness of a cover fails, as a function of the vertex."""
    elements = {target for row in rows for target, _ in row}

    def reason(v):
        by = witness[v][1]
        if v in elements:
            if by is None or by >= len(rows):
                return b"NotCovered"
            if v not in {target for target, _ in rows[by]}:
                return b"NotHeld"
            if witness[by][0] is None:
                return b"NotChosen"
        elif by is not None:
            return b"NoElement"
        return None

    return reason


REASONS = {b"Cores": cores_reasons, b"Distances": distances_reasons, b"Cover": cover_reasons}


def verdict(rows, word, witness, sources):
    """The exit code and the line of a check whose witness is of the graph; sources matter for distances alone."""
    reason = REASONS[word](rows, witness, frozenset(sources))
    for v in range(len(rows)):
        failed = reason(v)
        if failed is not None:
            return 1, b"no %d %s\n" % (v, failed)
    return 0, b"yes\n"
