"""The generated graphs, from the words of Steele, Lea and Flood's SplitMix64."""


def words_of(seed):
    """The generator's words without end."""
    state = seed
    while True:
        state = (state + 0x9E3779B97F4A7C15) % 2**64
        word = (state ^ state >> 30) * 0xBF58476D1CE4E5B9 % 2**64
        word = (word ^ word >> 27) * 0x94D049BB133111EB % 2**64
        yield word ^ word >> 31


def generate(n, pairs, seed):
    """The rows of a symmetric graph of 2 * pairs places, as lists of (target, weight)."""
    rows, words = [[] for _ in range(n)], words_of(seed)
    for _ in range(pairs):
        x, y, z = next(words), next(words), next(words)
        a, b, weight = x % n, y % n, 1 + z % 100
        rows[a].append((b, weight))
        rows[b].append((a, weight))
    return rows
