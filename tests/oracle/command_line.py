"""The words after the program's name: which are taken, and what they ask for."""
from collections import Counter, namedtuple

from .reading import MAX_SOURCE, MAX_SOURCES, is_number, value

USAGE = (
    b"usage: julienne TASK GRAPH [WITNESS] [--source LIST] [--delta D] [--open B] [--workers W] [--chunk C] "
    b"[--bare] [--n N] [--pairs P] [--seed X]\n"
)
LIST = b"--source"
# each option with a text, and the least and the greatest number that it may have, or each number of its list
RANGES = {
    LIST: (0, MAX_SOURCE),
    b"--delta": (1, 2**32 - 1),
    b"--open": (1, 65536),
    b"--workers": (1, 64),
    b"--chunk": (1, 65536),
    b"--n": (1, 2**24),
    b"--pairs": (0, 2**26),
    b"--seed": (0, 2**64 - 1),
}
FLAG = b"--bare"
WORK = {b"--open", b"--workers", b"--chunk"}
SIZES = {b"--n", b"--pairs", b"--seed"}
# the options and flags that a task allows, and those that it requires
ALLOWED = {
    b"wbfs": {LIST, FLAG} | WORK,
    b"delta": {LIST, b"--delta", FLAG} | WORK,
    b"kcore": {FLAG} | WORK,
    b"cover": {FLAG} | WORK,
    b"check": {LIST},
    b"upgrade": {LIST},
}
REQUIRED = {b"wbfs": set(), b"delta": {b"--delta"}, b"kcore": set(), b"cover": set(), b"check": set(), b"upgrade": set()}
SOLVED = (b"wbfs", b"delta", b"kcore", b"cover")
JUDGED = (b"check", b"upgrade")

# sizes are n, pairs and seed of a demo; graph and witness are names of files; named are the sources; None where there are none
Asked = namedtuple("Asked", "task graph witness sizes named is_bare")


def is_counted_twice(words):
    """Whether an option or the flag is counted twice."""
    counts, is_skipped = Counter(), False
    for word in words:
        if is_skipped:
            is_skipped = False
        elif word == b"--":
            break
        elif word in RANGES:
            counts[word] += 1
            is_skipped = True
        elif b"=" in word and word.split(b"=", 1)[0] in RANGES:
            counts[word.split(b"=", 1)[0]] += 1
        elif word == FLAG:
            counts[FLAG] += 1
    return max(counts.values(), default=0) > 1


def split(words):
    """The positionals and what is given of options and the flag, or None where the words are out of form.

    Before `--` a word that begins with a dash and isn't a dash alone is a name, and neither a positional nor a text.
    """
    positionals, given, waiting, are_names_over = [], {}, None, False
    for word in words:
        name, has_text, text = word.partition(b"=")
        if are_names_over or word == b"-" or not word.startswith(b"-"):
            if waiting is None or are_names_over:
                positionals.append(word)
            else:
                given[waiting], waiting = word, None
        elif waiting is not None:
            return None
        elif word == b"--":
            are_names_over = True
        elif word == FLAG:
            given[FLAG] = b""
        elif name not in RANGES:
            return None
        elif has_text:
            given[name] = text
        else:
            waiting = name
    return (positionals, given) if waiting is None and 2 <= len(positionals) <= 3 else None


def is_in_range(name, text):
    """Whether an option's text is a number of its range, or a list of such; the flag has no text."""
    if name == FLAG:
        return True
    least, greatest = RANGES[name]
    parts = text.split(b",") if name == LIST else [text]
    return len(parts) <= MAX_SOURCES and all(is_number(part) and least <= value(part) <= greatest for part in parts)


def are_allowed(given, task, is_demo):
    """Whether a task allows all that is given, has all that it requires, and each number is in its range."""
    allowed, required = ALLOWED[task], REQUIRED[task]
    if is_demo:
        allowed, required = allowed - {FLAG} | SIZES, required | SIZES
    return required <= given.keys() <= allowed and all(is_in_range(name, text) for name, text in given.items())


def is_text(word):
    """Whether a word is UTF-8."""
    try:
        word.decode("utf-8")
    except UnicodeDecodeError:
        return False
    return True


def asked(words):
    """What the words ask for, or None where they aren't taken."""
    parts = split(words) if all(is_text(word) for word in words) and not is_counted_twice(words) else None
    if parts is None:
        return None
    (task, graph, *witness), given = parts
    is_demo = task == b"demo"
    solved = graph if is_demo else task
    if solved not in (SOLVED if is_demo else ALLOWED) or (task in JUDGED) != bool(witness):
        return None
    if not are_allowed(given, solved, is_demo) or [graph] == witness == [b"-"]:
        return None
    sizes = tuple(value(given[name]) for name in (b"--n", b"--pairs", b"--seed")) if is_demo else None
    named = sorted(set(map(value, given[LIST].split(b",")))) if LIST in given else None
    return Asked(solved, None if is_demo else graph, witness[0] if witness else None, sizes, named, FLAG in given)
