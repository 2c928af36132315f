#!/usr/bin/env python3
"""Write docs/BENCHMARK.md and docs/benchmark.svg from what bench/run measured.

usage: report.py MEASURED DOCS

MEASURED has the files rows, counts and sizes. A row on which the library costs
more than LIMIT times plain C needs a line in NOTES that explains it; without one
the exit status is 1.
"""

import math
import os
import sys

LIMIT = 1.2

# Row: why the library is above LIMIT times plain C there.
NOTES = {}

LIBRARY, PLAIN, NOTHING = range(3)
EMPTY_CALL = 2  # the instructions of a call that does nothing
SHOWN = {0, 1, 16, 2048, 4096, 8192}  # sizes in the first table
REFUSED = {"ledger_take.refused": "6"}  # rows whose call is refused, and the reason
GROWING = ["range_find", "range_find.all_fit", "journal_book", "journal_release", "journal_tell",
           "swipe"]
COLOURS = ["#1b6ca8", "#222222", "#b5651d", "#2e8b57", "#8a2be2", "#c0392b"]


class Row:
    """One call, or a whole walk, on one input: instructions and stack bytes of each side."""

    def __init__(self, words, counts):
        line, self.name, self.size, calls = int(words[1]), words[2], int(words[3]), int(words[4])
        answers, depths = words[5::2], [int(word) for word in words[6::2]]
        right = REFUSED.get(self.name, "0")
        if answers != [right, right, "0"]:
            sys.exit(f"{self.name}: a call answered otherwise than {right}: {answers}")
        total = [counts[3 * line + side + 1] for side in range(3)]
        self.cost = [total[side] - total[NOTHING] + EMPTY_CALL * calls for side in (LIBRARY, PLAIN)]
        self.stack = [depths[side] - depths[NOTHING] for side in (LIBRARY, PLAIN)]

    def label(self):
        return f"{self.name}, {self.size:,}" if self.size else self.name

    def ratio(self):
        return self.cost[LIBRARY] / self.cost[PLAIN]


def read(folder, name):
    with open(os.path.join(folder, name), encoding="utf-8") as file:
        return file.read().splitlines()


def read_rows(folder):
    counted = (line.split() for line in read(folder, "counts") if line.startswith("count "))
    counts = {int(words[1]): int(words[2]) for words in counted}
    lines = read(folder, "rows")
    rows = [Row(line.split(), counts) for line in lines if line.startswith("row ")]
    inputs = {}  # of each name the first: the others have another size
    for line in lines:
        if line.startswith("input "):
            _, name, _, text = line.split(" ", 3)
            inputs.setdefault(name, text.strip())
    return rows, inputs


def table(heads, lines):
    yield "| " + " | ".join(heads) + " |"
    yield "|" + "---|" + "---:|" * (len(heads) - 1)
    for line in lines:
        yield "| " + " | ".join(line) + " |"


def cost_table(rows):
    return table(["Call", "Library", "Plain C", "Library / plain C"],
                 ([row.label(), f"{row.cost[LIBRARY]:,}", f"{row.cost[PLAIN]:,}",
                   f"{row.ratio():.2f}"] for row in rows if row.size in SHOWN))


def series(rows, name):
    return [row for row in rows if row.name == name]


def slope(points, side):
    """Instructions for each further record or slot."""
    first, last = points[0], points[-1]
    return (last.cost[side] - first.cost[side]) / (last.size - first.size)


def growth_table(rows):
    lines = []
    for name in GROWING:
        points = series(rows, name)
        for side, word in ((LIBRARY, "library"), (PLAIN, "plain C")):
            lines.append([f"{name}, {word}", *(f"{point.cost[side]:,}" for point in points),
                          f"{slope(points, side):.1f}"])
    return table(["Records or slots", "16", "64", "256", "1,024", "2,048 (records 4,096)",
                  "each further one"], lines)


def stack_table(rows):
    names = dict.fromkeys(row.name for row in rows)
    deepest = {name: [max(row.stack[side] for row in series(rows, name))
                      for side in (LIBRARY, PLAIN)] for name in names}
    return table(["Call", "Library", "Plain C"],
                 ([name, *(f"{depth:,}" for depth in deepest[name])] for name in names))


def size_table(folder):
    """The library's objects, and in the last two lines plain C's."""
    lines = [[int(word) for word in line.split()[:3]] for line in read(folder, "sizes")[1:]]
    library = [sum(column) for column in zip(*lines[:-2])]
    names = ["Library", "Plain C", "Plain C with the same table in it"]
    return table(["", "Code and constants", "Data"],
                 ([name, f"{text:,}", f"{data + zeroed:,}"]
                  for name, (text, data, zeroed) in zip(names, [library, *lines[-2:]])))


def notes(rows):
    for row in rows:
        if row.ratio() > LIMIT and row.size in SHOWN:
            yield f"- {row.label()}: {NOTES.get(row.name, 'NOT EXPLAINED')}"


class Plot:
    """Instructions over records or slots, both axes logarithmic."""

    WIDTH, HEIGHT, LEFT, TOP, RIGHT, BOTTOM = 760, 460, 80, 30, 570, 400

    def __init__(self, rows):
        self.all = [series(rows, name) for name in GROWING]
        costs = [cost for points in self.all for point in points for cost in point.cost]
        self.low = 10 ** math.floor(math.log10(min(costs)))
        self.high = 10 ** math.ceil(math.log10(max(costs)))

    def x(self, size):
        part = math.log(size / 16) / math.log(4096 / 16)
        return self.LEFT + part * (self.RIGHT - self.LEFT)

    def y(self, cost):
        part = math.log(cost / self.low) / math.log(self.high / self.low)
        return self.BOTTOM - part * (self.BOTTOM - self.TOP)

    def text(self, x, y, words, anchor="start"):
        return f'<text x="{x:.0f}" y="{y:.0f}" text-anchor="{anchor}">{words}</text>'

    def grid(self):
        for size in (16, 64, 256, 1024, 4096):
            x = self.x(size)
            yield f'<path class="grid" d="M{x:.1f} {self.TOP}V{self.BOTTOM}"/>'
            yield self.text(x, self.BOTTOM + 18, f"{size:,}", "middle")
        cost = self.low
        while cost <= self.high:
            y = self.y(cost)
            yield f'<path class="grid" d="M{self.LEFT} {y:.1f}H{self.RIGHT}"/>'
            yield self.text(self.LEFT - 6, y + 4, f"{cost:,}", "end")
            cost *= 10

    def lines(self):
        for points, colour in zip(self.all, COLOURS):
            for side, dash in ((LIBRARY, ""), (PLAIN, ' stroke-dasharray="6 4"')):
                path = " ".join(f"{self.x(p.size):.1f},{self.y(p.cost[side]):.1f}" for p in points)
                yield f'<polyline points="{path}" stroke="{colour}"{dash}/>'

    def legend(self):
        x = self.RIGHT + 20
        for i, (name, colour) in enumerate(zip(GROWING, COLOURS)):
            y = self.TOP + 20 + 22 * i
            yield f'<path d="M{x} {y - 4}h24" stroke="{colour}" stroke-width="2"/>'
            yield self.text(x + 30, y, name)
        yield self.text(x, self.TOP + 150, "solid: library")
        yield self.text(x, self.TOP + 170, "dashed: plain C, -O3")

    def svg(self):
        yield (f'<svg xmlns="http://www.w3.org/2000/svg" viewBox="0 0 {self.WIDTH} {self.HEIGHT}" '
               'font-family="sans-serif" font-size="12">')
        yield ("<style>.grid{stroke:#ccc;fill:none}polyline{fill:none;stroke-width:2}"
               "text{fill:#333}</style>")
        yield '<rect width="100%" height="100%" fill="#fff"/>'
        yield from self.grid()
        yield from self.lines()
        yield from self.legend()
        middle = (self.LEFT + self.RIGHT) / 2
        yield self.text(middle, self.BOTTOM + 44, "records or slots", "middle")
        yield self.text(self.LEFT, self.TOP - 12, "instructions of one call")
        yield "</svg>"


INTRODUCTION = """# Benchmark

Written by bench/run (`make bench`). Counted are guest instructions, exactly, by a plugin of
qemu-user (bench/count.c): the same number on every machine, and on every run. A call's count goes
from its first instruction to its return, what it calls included; what the program around it
spends is measured by calls that do nothing, and taken off. Beside the library stands plain C
for the same rules, tests/reference.c at -O3, in the same program on the same inputs. It reads a
stripe bit by bit, finds a card in a hot list by the C library's bsearch, and counts the days that
a card has left month by month; the swipes here are made in the card's expiry month, where it has
none to add. In the rows named same_table plain C is tests/reference.c with the library's
table in it, the one of request E9, and nothing else changed (bench/pairs.c): it reads the
characters of track 2 two at a look of ten bits. bench/run checks first that it gives what
tests/reference.c gives, on the tests' cases. Instructions are not time: a division counts as one.
Of loops only the survey's has a division by a variable, one for each slot, on both sides; a step
of a walk has two.
"""


def page(folder, rows, inputs):
    yield INTRODUCTION
    yield from cost_table(rows)
    explained = list(notes(rows))
    if explained:
        yield f"\nRows above {LIMIT} times plain C:\n"
        yield from explained
    yield "\n## How cost grows\n"
    yield from growth_table(rows)
    yield "\n![Instructions over records and slots](benchmark.svg)"
    yield "\n## Code size, in bytes\n"
    yield from size_table(folder)
    yield "\n## Largest stack, in bytes\n"
    yield ("The deepest byte that a call writes below its caller's stack, on the inputs of this "
           "page.\n")
    yield from stack_table(rows)
    yield "\n## Inputs\n"
    yield from table(["Call", "Input"], ([name, text] for name, text in inputs.items()))


def write(path, lines):
    with open(path, "w", encoding="utf-8") as file:
        file.write("\n".join(lines) + "\n")


def main():
    folder, docs = sys.argv[1:]
    rows, inputs = read_rows(folder)
    write(os.path.join(docs, "BENCHMARK.md"), page(folder, rows, inputs))
    write(os.path.join(docs, "benchmark.svg"), Plot(rows).svg())
    for line in cost_table(rows):
        print(line)
    bare = [row.label() for row in rows if row.ratio() > LIMIT and row.name not in NOTES]
    if bare:
        sys.exit(f"above {LIMIT} times plain C and not explained: {'; '.join(bare)}")


main()
