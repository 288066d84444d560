"""What is asked of a graph, whose rows are lists of (target, weight): each thing as it is defined, or nearly so."""
import heapq
from collections import Counter


def first_asymmetric_place(rows):
    """The least place from u to v that stands more often in row u than the one from v to u in row v; None where there is none."""
    count = Counter((u, v) for u, row in enumerate(rows) for v, _ in row)
    places = ((u, v) for u, row in enumerate(rows) for v, _ in row)
    return next((place for place, (u, v) in enumerate(places) if count[u, v] > count[v, u]), None)


def least_walks(rows, sources):
    """The least (sum of weights, number of places) of a walk from some source to each vertex, None where there is no walk."""
    least = [None] * len(rows)
    queue = [(0, 0, source) for source in sources]
    while queue:
        distance, hops, u = heapq.heappop(queue)
        if least[u] is not None:
            continue
        least[u] = distance, hops
        for v, weight in rows[u]:
            if least[v] is None:
                heapq.heappush(queue, (distance + weight, hops + 1, v))
    return least


def distances_lines(rows, sources):
    """Distance to the nearest source, hops and parent of each vertex, None for a dash."""
    least = least_walks(rows, sources)
    parents = [None] * len(rows)
    for u in reversed(range(len(rows))):
        for v, weight in rows[u]:
            if least[u] is not None and (least[u][0] + weight, least[u][1] + 1) == least[v]:
                parents[v] = u
    return [[None, None, None] if walk is None else [*walk, parent] for walk, parent in zip(least, parents)]


def in_sources(rows):
    """For each vertex the sources of the places that lead to it."""
    sources = [[] for _ in rows]
    for u, row in enumerate(rows):
        for v, _ in row:
            sources[v].append(u)
    return sources


def coreness(rows):
    """The greatest k for which each vertex is in a list whose members all have k places into the list.

    For each k in turn the greatest such list is what is left of the one before when members with too few places are taken away
    one by one; who is taken away for k has the coreness k - 1.
    """
    sources, inner = in_sources(rows), [len(row) for row in rows]
    cores, left, k = [None] * len(rows), set(range(len(rows))), 1
    while left:
        few = [u for u in left if inner[u] < k]
        while few:
            v = few.pop()
            if cores[v] is None:
                cores[v] = k - 1
                left.discard(v)
                for u in sources[v]:
                    inner[u] -= 1
                    if inner[u] < k and cores[u] is None:
                        few.append(u)
        k += 1
    return cores


def levels(rows):
    """The round in which each vertex goes, if each round takes all that have no more places left than the bound so far."""
    sources, inner = in_sources(rows), [len(row) for row in rows]
    level, left, bound, round_ = [None] * len(rows), set(range(len(rows))), 0, 0
    while left:
        bound = max(bound, min(inner[u] for u in left))
        taken = [u for u in left if inner[u] <= bound]
        left.difference_update(taken)
        for v in taken:
            level[v] = round_
            for u in sources[v]:
                inner[u] -= 1
        round_ += 1
    return level


def cores_lines(rows):
    """Core and level of each vertex."""
    return [list(line) for line in zip(coreness(rows), levels(rows))]


def chosen_sets(left):
    """The sets that a round chooses; left has for each set its elements that aren't covered."""
    greatest = max(map(len, left))
    power = 2 ** (greatest.bit_length() - 1)
    winners, active = {}, [s for s, elements in enumerate(left) if len(elements) >= power]
    for s in active:
        for element in left[s]:
            winners.setdefault(element, s)
    won = Counter(winners.values())
    return [s for s in active if 2 * won[s] >= power]


def cover_lines(rows):
    """The round and the set of each vertex, None for a dash."""
    left = [{element for element, _ in row} for row in rows]
    lines, round_ = [[None, None] for _ in rows], 0
    while any(left):
        covered = set()
        for s in chosen_sets(left):
            lines[s][0] = round_
            for element in left[s] - covered:
                lines[element][1] = s
            covered |= left[s]
        left = [elements - covered for elements in left]
        round_ += 1
    return lines
