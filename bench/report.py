#!/usr/bin/env python3
"""The benchmark's report: report.py TIMES COUNTS DOCS prints the table and writes DOCS/BENCH.md and DOCS/bench.svg.

TIMES has lines `turn name nanos steps keys nanos steps updates`, COUNTS `part instructions name` and the same rest.
In order: reading; the figures; the table; the chart; the page. Nothing but the standard library is used.
"""
import os
import platform
import statistics
import sys

NAMES = [
    ("ravencrumb", "Ravencrumb"),
    ("stepwise", "Ravencrumb, a call a step"),
    ("twin", "the twin in safe Rust"),
    ("lmdb", "LMDB"),
    ("concread", "concread's B+tree map"),
    ("sorted", "a copied sorted vector"),
]
FIGURES = [("step", "a step"), ("key", "a key handed out"), ("update", "an update")]
# figure, beside whom, at most this many times theirs
TARGETS = [("step", "twin", 1.1), ("key", "lmdb", 1.0), ("update", "lmdb", 0.7)]


# ---- reading
def figures(ranges, updates):
    """What a step, a key handed out and an update cost, from (cost, steps, count) of the ranges and of the updates."""
    steps = ranges[1] + updates[1]
    found = {"key": ranges[0] / ranges[2], "update": updates[0] / updates[2]}
    if steps:
        found["step"] = (ranges[0] + updates[0]) / steps
        found["range step"] = ranges[0] / ranges[1]
        found["update step"] = updates[0] / updates[1]
    return found


def read_times(path):
    turns = {}
    with open(path) as lines:
        for line in lines:
            turn, name, *numbers = line.split()
            n = [float(x) for x in numbers]
            turns.setdefault(int(turn), {})[name] = figures(n[:3], n[3:])
    return [turns[t] for t in sorted(turns)]


def range_share(path):
    """Of a hundred steps, how many are a range's."""
    with open(path) as lines:
        for line in lines:
            _, name, *numbers = line.split()
            if name == "twin":
                return round(100 * float(numbers[1]) / (float(numbers[1]) + float(numbers[4])))
    return "-"


def read_counts(path):
    parts = {}
    with open(path) as lines:
        for line in lines:
            part, told, name, *numbers = line.split()
            n = [float(x) for x in numbers]
            at = 0 if part == "range" else 3
            parts.setdefault(name, {})[part] = (float(told), n[at + 1], n[at + 2])
    return {name: figures(p["range"], p["update"]) for name, p in parts.items() if len(p) == 2}


# ---- the figures
def middle(turns, name, what):
    found = [t[name][what] for t in turns if what in t.get(name, {})]
    return statistics.median(found) if found else None


def ratio(turns, one, other, what):
    """One's cost by the other's: the median over the turns, and every turn's."""
    found = [t[one][what] / t[other][what] for t in turns if what in t.get(one, {}) and what in t.get(other, {})]
    return (statistics.median(found), found) if found else None


def shown(x):
    if x is None:
        return "-"
    return f"{x:,.0f}" if x >= 100 else f"{x:.1f}" if x >= 1 else f"{x:.2f}"


def table(head, rows):
    wide = [max(len(r[i]) for r in [head] + rows) for i in range(len(head))]
    cell = lambda r, i: r[i].rjust(wide[i]) if i else r[i].ljust(wide[i])
    line = lambda r: "| " + " | ".join(cell(r, i) for i in range(len(r))) + " |"
    rule = "|" + "|".join("-" * (w + 1) + (":" if i else "-") for i, w in enumerate(wide)) + "|"
    return "\n".join([line(head), rule] + [line(r) for r in rows])


def costs(of):
    head = ["", "a step", "of a range", "of an update", "a key handed out", "an update"]
    whats = ["step", "range step", "update step", "key", "update"]
    rows = [[said] + [shown(of(name, w)) for w in whats] for name, said in NAMES if of(name, "key") is not None]
    return table(head, rows)


def targets(turns, counts):
    said = dict(NAMES)
    rows = []
    for one, how in [("stepwise", " (a call a step)"), ("ravencrumb", " (many steps a call)")]:
        for what, other, most in TARGETS:
            rows.append(target(turns, counts, one, how, what, other, most, said))
    return table(["ratio", "at most", "time", "over the turns", "turns within", "instructions", ""], rows)


def target(turns, counts, one, how, what, other, most, said):
    r = ratio(turns, one, other, what)
    c = ratio([counts], one, other, what)
    return [
        f"{dict(FIGURES)[what]}{how}, by {said[other]}'s",
        f"{most:.1f}",
        f"{r[0]:.2f}" if r else "-",
        f"{min(r[1]):.2f} to {max(r[1]):.2f}" if r else "-",
        f"{sum(x <= most for x in r[1])} of {len(r[1])}" if r else "-",
        f"{c[0]:.2f}" if c else "-",
        "not measured" if not r else "reached" if r[0] <= most else "short",
    ]


# ---- the chart: three groups of bars, each group on its own scale
def chart(turns):
    colors = dict(zip([n for n, _ in NAMES], ["#1b4f72", "#2874a6", "#5dade2", "#b9770e", "#7d6608", "#909497"]))
    out, y = [], 30
    for what, title in FIGURES:
        found = [(n, s, middle(turns, n, what)) for n, s in NAMES]
        found = [f for f in found if f[2] is not None]
        most = max(f[2] for f in found)
        out.append(f'<text x="10" y="{y}" font-weight="bold">nanoseconds: {title}</text>')
        y += 10
        for name, said, cost in found:
            width = max(1.0, 420 * cost / most)
            out.append(f'<text x="190" y="{y + 14}" text-anchor="end">{said.replace("&", "&amp;")}</text>')
            out.append(f'<rect x="200" y="{y}" width="{width:.1f}" height="18" fill="{colors[name]}"/>')
            out.append(f'<text x="{206 + width:.1f}" y="{y + 14}">{shown(cost)}</text>')
            y += 24
        y += 26
    head = f'<svg xmlns="http://www.w3.org/2000/svg" width="720" height="{y - 16}" font-size="13"'
    head += ' font-family="sans-serif">'
    return "\n".join([head, f'<rect width="720" height="{y - 16}" fill="white"/>'] + out + ["</svg>", ""])


# ---- the page
PAGE = """# The benchmark

`bench/run` writes this page and [the chart](bench.svg). It is not part of the gate.

## To reach

{targets}

Like with like is the first row: the twin makes one step at a time too. A step is one of the whole workload, in which
{share} of a hundred are a range's; a range's alone is {ranges} times the twin's. The rows of many steps a call compare
a call that joins steps with a twin that does not; they say what a user of that call pays, not how well a step is
compiled.

"Time" is the median over {turns} turns of the ratio within a turn, and the last column goes by it. The contenders live
each life in turn, another of them first each time, so that what slows the machine for longer than a life slows all of
them; only concread, which is another program, follows them. The instruction counts repeat. The same ratios of the
twin, which say what a call a step costs where nothing is proved: {twin}.

A step of the twin took {slowest} in the slowest turn and {fastest} in the fastest: the machine's speed is not ours to
set, and the nanoseconds below are the medians.

## Nanoseconds

{times}

![nanoseconds](bench.svg)

## Instructions

Counted by valgrind (callgrind) inside the measured functions, over two lives.

{counts}

## What was measured, and how

- A life of the register: 255 keys (not timed); then 3 rounds of one whole range at a snapshot in 4 parts, with 16
  inserts of new keys and 16 removes in turn after each part, so 64 and 64 a round, while 64 more inserts fit: 447 of
  510. 20 lives with other keys each, the same for every contender. Every range is compared with a model, and so is
  what is left at the end.
- The clock is read around whole parts: a quarter of a range, or 32 updates. Its own cost is taken off. Each part is
  timed in 9 passes and its median taken; the sum of these is divided by the steps, keys or updates. All of that is
  repeated in {turns} turns.
- Ravencrumb: the C library on the caller's memory, by `ravencrumb_steps`: one call for all steps of an update, and one
  for a quarter of a range, whose keys go into a lent slice. A key handed out is two steps (Follow, Hand); an update
  walks from the head, about 130 steps. The other line makes the same steps by `ravencrumb_step`, a call each.
- The twin: the same steps and checks in safe Rust, over vectors of words with bounds checks, records as an enum in an
  array; a call a step. Nothing of it is proved.
- LMDB: integer keys, no sync, write map, its file in memory; an update is a write transaction with one put or delete,
  a key handed out is a cursor's step in a read transaction opened at the snapshot.
- concread: its B+tree map; an update is a write transaction, a range iterates over a read transaction.
- The copied sorted vector, the floor: a binary search and a move of the rest for an update; a copy of all for a range.
- All are release builds, in one run on one machine: {machine}.
"""


def main():
    times, counts, docs = sys.argv[1:4]
    turns, counted = read_times(times), read_counts(counts)
    said_times = costs(lambda n, w: middle(turns, n, w))
    said_counts = costs(lambda n, w: counted.get(n, {}).get(w))
    goals = targets(turns, counted)
    machine = f"{platform.machine()}, {os.cpu_count()} cores, {platform.system()}"
    twin = [(what, ratio(turns, "twin", "lmdb", what)) for what in ("key", "update")]
    twin = ", ".join(f"{dict(FIGURES)[w]} {r[0]:.2f} times LMDB's" for w, r in twin if r) or "not measured"
    steps = [t["twin"]["step"] for t in turns if "twin" in t]
    said = {"targets": goals, "twin": twin, "times": said_times, "counts": said_counts}
    alone = ratio(turns, "stepwise", "twin", "range step")
    said |= {"ranges": f"{alone[0]:.2f}" if alone else "-", "share": range_share(times)}
    said |= {"slowest": f"{max(steps):.1f} ns", "fastest": f"{min(steps):.1f} ns"}
    page = PAGE.format(turns=len(turns), machine=machine, **said)
    with open(os.path.join(docs, "BENCH.md"), "w") as f:
        f.write(page)
    with open(os.path.join(docs, "bench.svg"), "w") as f:
        f.write(chart(turns))
    print(f"nanoseconds\n{said_times}\n\ninstructions\n{said_counts}\n\n{goals}")


main()
