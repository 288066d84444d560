"""Texts of graphs and witnesses, written plainly, spread over lines at random, or damaged."""

WHITE = [b" ", b"\n", b"\t", b"\r\n", b"  ", b"\n\n"]
NO_NUMBERS = ["x", "", "+1", "1.5", "0x1", "-", "--1", "-0", "1-", "\x00", "\x0b1", "\xff"]
BOUNDS = ["16777216", "16777217", "134217728", "134217729", "4294967295", "4294967296", "18446744073709551614",
          "18446744073709551615", "18446744073709551616", "9" * 40]


def graph_tokens(rows, weighted):
    """The tokens of a graph whose rows are lists of (target, weight)."""
    offsets, places = [], 0
    for row in rows:
        offsets.append(places)
        places += len(row)
    targets = [target for row in rows for target, _ in row]
    weights = [weight for row in rows for _, weight in row] if weighted else []
    header = "WeightedAdjacencyGraph" if weighted else "AdjacencyGraph"
    return [header, len(rows), places, *offsets, *targets, *weights]


def witness_tokens(word, lines, places=None, sources=()):
    """The tokens of a witness whose lines are lists of numbers, None for a dash; of version 2 where the places are told."""
    head = [word, len(lines)] if places is None else [f"{word}2", len(lines), places]
    if places is not None and word == "Distances":
        head += [len(sources), *sources]
    return head + ["-" if entry is None else entry for line in lines for entry in line]


def witness(word, lines, places, sources=()):
    """The text of a witness as the program writes it."""
    head = [word + "2\n", f"{len(lines)} {places}\n"]
    if word == "Distances":
        head.append(" ".join(map(str, [len(sources), *sources])) + "\n")
    return "".join(head + [" ".join("-" if entry is None else str(entry) for entry in line) + "\n" for line in lines]).encode()


def plain(tokens):
    """The tokens as bytes, one a line."""
    return "".join(f"{token}\n" for token in tokens).encode()


def spread(rng, tokens):
    """The tokens as bytes, with white bytes anywhere between them."""
    text = b""
    if rng.random() < 0.3:
        text += rng.choice(WHITE)
    for token in tokens:
        text += str(token).encode("latin-1", "replace") + (rng.choice(WHITE) if rng.random() < 0.4 else b" ")
    return text.rstrip(b" \t\r\n") if rng.random() < 0.5 else text


# each way to damage a token gives the tokens in its place
DAMAGES = [
    lambda rng, token: [],
    lambda rng, token: [str(rng.randrange(0, 9)), token],
    lambda rng, token: ["-" + token],
    lambda rng, token: [rng.choice(NO_NUMBERS)],
    lambda rng, token: [rng.choice(BOUNDS)],
    lambda rng, token: ["0" * rng.randrange(1, 30) + token],
    lambda rng, token: [token.swapcase()],
    lambda rng, token: [str(rng.randrange(0, 40))],
]


def damaged(rng, tokens):
    """The tokens with one, two or three of them changed, or cut off behind one."""
    tokens = [str(token) for token in tokens]
    for _ in range(rng.choice([1, 1, 1, 2, 3])):
        at = rng.randrange(0, len(tokens) + 1)
        if at == len(tokens):
            tokens.append(str(rng.randrange(0, 9)))
        elif rng.random() < 0.1:
            del tokens[at:]
        else:
            tokens[at:at + 1] = rng.choice(DAMAGES)(rng, tokens[at])
    return tokens
