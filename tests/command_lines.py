"""Random command lines: options in any order and form, numbers at and beyond their bounds, and words out of form."""
from oracle.command_line import FLAG, LIST, RANGES
from oracle.reading import MAX_SOURCES

SOLVERS = {"Cores": [b"kcore"], "Distances": [b"wbfs", b"delta"], "Cover": [b"cover"]}
ALL_SOLVERS = [b"wbfs", b"delta", b"kcore", b"cover"]
JUDGES = [b"check", b"check", b"upgrade"]
NO_SOLVERS = [b"-", b"", b"check", b"check", b"check", b"upgrade", b"upgrade", b"demo", b"peel"]
NO_FILES = [b"no_such_file", b"", b".", b"g/", b"\xff", b"g\xff"]
DASHED_NAMES = [b"-g", b"-g", b"--", b"-x", b"--bare", b"--bare", b"--source=0", b"--source=0", b"--source", b"--chunk"]

# numbers that most turns take
USUAL = {
    b"--delta": [1, 2, 3, 5, 10, 32, 100, 1000, 10**6, 2**32 - 1],
    b"--open": [1, 2, 3, 7, 64, 127, 128, 129, 65536],
    b"--workers": [1, 2, 3, 4, 7, 16, 64],
    b"--chunk": [1, 2, 3, 10, 255, 256, 65536],
    b"--n": [1, 1, 2, 3, 5, 20, 100, 300],
    b"--pairs": [0, 1, 2, 10, 50, 300],
    b"--seed": [0, 1, 7, 2**32, 2**63, 2**64 - 1],
}
# texts that are no number, for a program that reads digits alone
NO_NUMBERS = [b"", b"-1", b"-0", b"-", b"--", b"+1", b"1.0", b"1e3", b"0x1", b" 1", b"1 ", b"1\n", b"1_0", b"x", b"\xd9\xa1", b"\xff",
              b"NONE", b"--bare", b"--source", b"-g", b"g", b"=1", b"1=1", b"1=1", b"1,1", b"1,2", b"1,", b",1",
              b","]
# what may stand in a list in place of a number, or round one
NO_PARTS = [b"", b"", b"", b"-1", b"+1", b" 1", b"1 ", b"1;2", b"1.2", b"x", b"0x1", b"-", b"\xff", b"NONE", b"1\t", b"\xd9\xa1"]
# words that may be put in anywhere
ODD_WORDS = [b"", b"-", b"--", b"---", b"--bare", b"--bare=", b"--bare=true", b"--bar", b"--no-bare", b"-b", b"-h", b"--help", b"-V",
             b"--version", b"--sour", b"--source", b"--source=", b"--source=0", b"--Source=0", b"--delta=3", b"--workers=1", b"--n=1",
             b"--pairs=0", b"--seed=0", b"--=1", b"--=", b"-=", b"-1", b"--1", b"-0", b"0", b"0,1", b"--source=0,1", b"g", b"w", b"wbfs",
             b"check", b"upgrade", b"demo", b"help", b"\xff", b"\xc3\xa9", b"--\xff", b"--\xff=1", b"-\xff",
             b"--source=\xff", b"--source==0", b"--chunk=1", b"--open=1"]


def digits(rng, number):
    """A number as it may be written: sometimes with zeros before it."""
    return b"0" * (rng.randrange(0, 25) if rng.random() < 0.05 else 0) + b"%d" % number


def edge_text(rng, name):
    """A number just within the bounds of an option or just beyond them, or no number."""
    least, greatest = RANGES[name]
    if rng.random() < 0.35:
        return rng.choice(NO_NUMBERS)
    beyond = [greatest + 1, greatest + 2**32, greatest + 2**64, 10**30] + [least - 1] * (least > 0)
    within = [least] if name in (b"--n", b"--pairs") else [least, greatest]
    return digits(rng, rng.choice(beyond + within))


def in_any_order(rng, sources):
    """The sources in some order, with some of them more than once; seldom as many numbers as there may be, or one more."""
    listed = list(sources)
    if rng.random() < 0.3:
        listed += rng.choices(sources, k=rng.choice([1, 1, 2, 3]))
    if rng.random() < 0.02:
        listed += rng.choices(sources, k=max(0, MAX_SOURCES + rng.choice([0, 0, 1, 1, 9]) - len(listed)))
    if rng.random() < 0.5:
        rng.shuffle(listed)
    return listed


def list_text(rng, sources):
    """The text of a list: mostly the scene's sources, sometimes a number more, fewer or other, or something that is no number."""
    listed = in_any_order(rng, sources)
    at, kind = rng.randrange(0, len(listed)), rng.random()
    if kind < 0.12:
        changed = [[listed[at], 0], [listed[at], max(listed) + 1], [listed[at] + 1], [max(listed[at], 1) - 1], [2**32 - 1], [2**32]]
        listed[at:at + 1] = rng.choice(changed + [[]] * (len(listed) > 1))
    parts = [digits(rng, number) for number in listed]
    if rng.random() < 0.03:
        parts[at:at + rng.randrange(0, 2)] = [rng.choice(NO_PARTS)]
    return b",".join(parts)


def option_text(rng, name, sources):
    """The text of an option: mostly a usual number, or the scene's sources."""
    if rng.random() < 0.05:
        return edge_text(rng, name)
    return list_text(rng, sources) if name == LIST else digits(rng, rng.choice(USUAL[name]))


def option_words(rng, name, text):
    """An option as one word or as two, or seldom as none of these."""
    kind = rng.random()
    return [name + b"=" + text] if kind < 0.4 else [name, text] if kind < 0.995 else [name + b"=", text]


def foreign_option(rng):
    """Any option or flag with a text that is right for it."""
    name = rng.choice([FLAG, *RANGES])
    return [FLAG] if name == FLAG else option_words(rng, name, b"%d" % rng.choice([1, 1, 2, RANGES[name][0]]))


def arranged(rng, positionals, options):
    """The positionals in their order and the options, mixed or one after the other, and sometimes with `--` or an option more."""
    if rng.random() < 0.07:
        options = options + [foreign_option(rng)]
    parts = [[word] for word in positionals]
    dashed = [at for at, word in enumerate(positionals) if word.startswith(b"-") and word != b"-"]
    behind = rng.randrange(0, (dashed or [len(parts)])[0] + 1) if rng.random() < (0.9 if dashed else 0.15) else len(parts)
    before = parts[:behind]
    for option in rng.sample(options, len(options)):
        before.insert(rng.randrange(0, len(before) + 1), option)
    if behind < len(parts) or rng.random() < 0.03:
        before.append([b"--"])
    return [word for part in before + parts[behind:] for word in part]


def some_options(rng, names, chance):
    """Some of the options, each with a text that is no list."""
    return [option_words(rng, name, option_text(rng, name, [])) for name in names if rng.random() < chance]


def file_name(rng, name):
    """The name of a file that is there, mostly this one, or standard input."""
    kind = rng.random()
    return rng.choice(NO_FILES if kind < 0.06 else DASHED_NAMES if kind < 0.12 else [b"-"] if kind < 0.4 else [name])


def source_options(rng, sources, is_named=False):
    """The sources, which are left out where they may be, or where a witness names them."""
    if (sources == [0] or is_named) and rng.random() < 0.5:
        return []
    return [option_words(rng, LIST, option_text(rng, LIST, sources))]


def task_options(rng, task, sources):
    """What a task takes beside the number of workers and its like."""
    options = source_options(rng, sources) if task in (b"wbfs", b"delta") else []
    if task == b"delta" and rng.random() < 0.96:
        options.append(option_words(rng, b"--delta", option_text(rng, b"--delta", sources)))
    return options


def solve_words(rng, task, sources):
    """A task on a graph file."""
    options = task_options(rng, task, sources) + some_options(rng, [b"--open", b"--workers", b"--chunk"], 0.35)
    if rng.random() < 0.3:
        options.append([rng.choice([FLAG] * 60 + [FLAG + b"=", FLAG + b"=true"])])
    return arranged(rng, [task, file_name(rng, b"g")], options)


def demo_words(rng, task):
    """A task on a generated graph."""
    n = rng.choice(USUAL[b"--n"])
    sources = rng.choice([[0], [0], [n - 1], [n], sorted({0, n // 2, n - 1}), sorted({n // 2, n, n + 1})])
    options = task_options(rng, task, sources) + some_options(rng, [b"--open", b"--workers", b"--chunk"], 0.3)
    options.append(option_words(rng, b"--n", edge_text(rng, b"--n") if rng.random() < 0.06 else digits(rng, n)))
    options += some_options(rng, [b"--pairs", b"--seed"], 0.98)
    return arranged(rng, [b"demo", task], options)


# graph and witness of a check or of an upgrade
CHECKED = [[b"g", b"w"]] * 50 + [[b"-", b"w"], [b"g", b"-"]] * 5 + [[b"g", b"g"], [b"w", b"g"], [b"-", b"-"], [b"--bare", b"--bare"]]


def check_words(rng, scene):
    """A check of a witness file, or its upgrade."""
    names = list(rng.choice(CHECKED))
    if rng.random() < 0.08:
        names[rng.randrange(0, 2)] = rng.choice(NO_FILES + DASHED_NAMES)
    return arranged(rng, [rng.choice(JUDGES), *names], source_options(rng, scene.sources, scene.is_named))


def reformed(rng, word):
    """Words that stand for one, or that a lax program might take for it."""
    name, is_one, text = word.partition(b"=")
    return rng.choice([[], [word, word], [word.upper()], [b"-" + word], [word.lstrip(b"-")], [word[:-1]], [word + b"="],
                       [name, text] if is_one else [word + b"=" + word], [rng.choice(ODD_WORDS)], [rng.choice(NO_NUMBERS)]])


def odd_words(rng, words):
    """The words with one or two of them put in, given twice, changed or moved."""
    words = list(words)
    for _ in range(rng.choice([1, 1, 2])):
        at, kind = rng.randrange(0, len(words) + 1), rng.randrange(0, 5)
        if kind == 0 or not words[at:]:
            words.insert(at, rng.choice(ODD_WORDS))
        elif kind == 1:
            words[at:at + 1] = reformed(rng, words[at])
        elif kind == 2:
            words.insert(rng.randrange(0, len(words)), words.pop(at))
        elif kind == 3:
            words[at:at] = foreign_option(rng)
        else:
            words.append(rng.choice(list(RANGES)))
    return words


def random_words(rng, scene):
    """A command line for a scene: mostly its witness checked or upgraded, or what the witness is of solved."""
    kind = rng.random()
    if kind < 0.46:
        words = check_words(rng, scene)
    elif kind < 0.77:
        words = solve_words(rng, rng.choice(SOLVERS[scene.word]), scene.sources)
    elif kind < 0.9:
        words = solve_words(rng, rng.choice(ALL_SOLVERS), scene.sources)
    else:
        words = demo_words(rng, rng.choice(ALL_SOLVERS if rng.random() < 0.92 else NO_SOLVERS))
    return odd_words(rng, words) if rng.random() < 0.15 else words
