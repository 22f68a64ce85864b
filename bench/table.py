"""The measured times as tables of ratios, in Markdown."""
import textwrap

# what bench/results.md begins with
HEAD = """# The tables of one run

Written by `bench/run --record`; docs/PERFORMANCE.md says what is compared and what follows.

"""

# the sums in the order of sums.c, and then fsum.py's: a name for the tables, and what it is
SUMS = (
    ("naive", "the naive sum, a loop in C"),
    ("walk in C, gcc", "the scope's walk in C, which judges the list, copies it and finds its largest magnitude in three passes; each round is a serial sum"),
    ("walk in C, clang", "the same source by the kit's clang"),
    ("best walk, gcc", "the fastest walk in C that is known: one pass for the judgement and the largest magnitude, nothing copied, T in the first round, tau in eight"),
    ("best walk, clang", "the same source by the kit's clang"),
    ("undivided", "`kewohiata_walk_faithful`, the undivided call, on arrays"),
    ("opening alone", "`kewohiata_walk_open`, with which the undivided call begins"),
    ("by blocks", "`kewohiata_walk_open` and `kewohiata_walk_step`, blocks in rising order"),
    ("bytes, faithful", "`kewohiata_faithful`: its time has the copy of the bytes to numbers and the clearing of its areas in it"),
    ("nearest", "`kewohiata_list_nearest`, on arrays"),
    ("bytes, nearest", "`kewohiata_nearest`, with the same copy and its clearing"),
    ("register", "n calls of `kewohiata_words_add` on 33 words"),
    ("bytes, register", "n calls of `kewohiata_register_add` on 264 bytes"),
    ("lanes", "n calls of `kewohiata_lanes_add` on 66 lanes, each of which looks at all of them"),
    ("lanes, inner", "n calls of `lanes::inner::add`, which looks at three lanes alone; the judgement of the list and one public addition are in its time"),
    ("settling", "one call of `kewohiata_lanes_settle`, whatever n is"),
    ("mpfr_sum", "MPFR's exact sum rounded to 53 bits, of numbers of 53 bits that were converted before"),
    ("mpfr_sum, converting", "the same with the conversion of the doubles"),
    ("math.fsum", "Python's, of a list of floats, in a process of its own"),
)
NAMES = tuple(name for name, _ in SUMS)
WALKS = NAMES[1:5]
PAIRS = (
    *(("undivided", walk) for walk in WALKS),
    ("bytes, faithful", "walk in C, gcc"),
    ("by blocks", "undivided"),
    ("nearest", "walk in C, gcc"),
    ("nearest", "mpfr_sum"),
    ("nearest", "mpfr_sum, converting"),
    ("bytes, nearest", "mpfr_sum"),
    ("bytes, nearest", "mpfr_sum, converting"),
    ("lanes", "register"),
    ("lanes, inner", "register"),
    ("settling", "register"),
)


def figure(x):
    return f"{x:.2f}" if x < 10 else f"{x:.1f}" if x < 100 else f"{x:,.0f}"


def rows(head, body):
    yield "| " + " | ".join(head) + " |"
    yield "|---" * len(head) + "|"
    for cells in body:
        yield "| " + " | ".join(cells) + " |"
    yield ""


def of_length(n, conditions, times):
    """`times`: for each condition the ns of each name."""
    def row(name, cell):
        return [name, *(cell(times[c]) for c in conditions)]

    yield f"### n = {n:,}"
    yield ""
    body = [row("naive, ns", lambda t: f"{t['naive']:,.0f}")]
    body += [row(name, lambda t, name=name: figure(t[name] / t["naive"])) for name in NAMES[1:]]
    yield from rows(["multiples of the naive sum", *conditions], body)
    body = [row(f"{a} / {b}", lambda t, a=a, b=b: figure(t[a] / t[b])) for a, b in PAIRS]
    yield from rows(["against each other", *conditions], body)


def worst(times, above, below):
    """The greatest ratio of two sums, with its case."""
    return max((t[above] / t[below], n, c) for (n, c), t in times.items())


def greatest(times):
    body = []
    for above, below in PAIRS:
        ratio, n, condition = worst(times, above, below)
        body.append([f"{above} / {below}", figure(ratio), f"{n:,}", condition])
    yield from rows(["greatest ratio of all cases", "", "n", "condition"], body)


def whole(heading, lengths, conditions, times):
    """All of it; `times` by n and condition."""
    out = [*textwrap.wrap(heading, 150), "", *rows(["row", "what is timed"], SUMS), *greatest(times)]
    for n in lengths:
        out += of_length(n, conditions, {c: times[n, c] for c in conditions})
    return "\n".join(out).rstrip() + "\n"


def compared(names, lengths, conditions, ratios):
    """Ratios of one tree's times to another's; `ratios` by n and condition."""
    out = []
    for n in lengths:
        out += rows([f"n = {n:,}", *conditions], [[name, *(figure(ratios[n, c][name]) for c in conditions)] for name in names])
    greatest_of = [(name, *max((ratios[case][name], *case) for case in ratios)) for name in names]
    out += rows(["greatest of all cases", "", "n", "condition"], [[name, figure(ratio), f"{n:,}", condition] for name, ratio, n, condition in greatest_of])
    return "\n".join(out).rstrip()
