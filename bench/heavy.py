#!/usr/bin/env python3
"""Writes pages that are heavy to issue into a folder, a file each.

usage: bench/heavy.py FOLDER
"""
import os
import random
import sys


def page(quantities, rows, columns, nevers=(), default=None):
    lines = list(quantities) + [f"row {q} {mode}" for q, mode in rows]
    lines += [" ".join([f"column {result}", *entries]) for result, entries in columns]
    lines += [" ".join(["never", *entries]) for entries in nevers]
    if default is not None:
        lines.append(f"default {default}")
    return "\n".join(lines + ["end"]) + "\n"


def names(count, scope="flight"):
    return [f"{scope} names 0 1"] * count


def just(place, length, cell):
    """One cell, and any elsewhere."""
    return [cell if i == place else "." for i in range(length)]


def ten_names():
    """Ten names of each flight: 1,048,576 encounters, which is the limit."""
    ten = names(10)
    both = [(q, "both") for q in range(10)]
    either = [(q, "either") for q in range(10)]
    ones = ["{1}"] * 10
    yield "names-one-column", page(ten, both, [(1, ones)], default=5)
    yield "names-ten-columns", page(ten, both, [(1, just(q, 10, "{1}")) for q in range(10)], default=1)
    # the last encounter, all 1, is the only gap, and then the only clash
    yield "names-gap-last", page(ten, either, [(1, just(q, 10, "{0}")) for q in range(10)])
    yield "names-clash-last", page(ten, both, [(1, ones), (2, ones)], default=5)
    # a lopsided answer where both have 1 everywhere, but B in the last quantity
    rows = [(q, "both") for q in range(9)] + [(9, "A"), (9, "B")]
    yield "names-asymmetry-late", page(ten, rows, [(1, ["{1}"] * 10 + ["{0}"])], default=5)
    # A and B in rows of their own: what is met seldom is the same twice in a row
    rows = [(q, mode) for q in range(8) for mode in "AB"]
    columns = [(1, just(i, 16, "{1}")) for i in range(16)]
    yield "names-rows-apart", page(names(10), rows[:12] + [(6, "both"), (7, "both"), (8, "both"), (9, "both")], columns, default=1)
    yield "names-all-barred", page(ten, either, [(1, ones)], [just(q, 10, "{0}") for q in range(7)] + [["."] * 10])


def full(seed):
    """16 rows, 16 columns and 8 nevers, cells everywhere, over ten names of each flight."""
    rng = random.Random(seed)
    rows = [(q, "both") for q in range(10)] + [(q, "either") for q in range(6)]
    cell = lambda: rng.choice(["{0,1}", "{0,1}", "{0,1}", "{1}", "{0}"])
    columns = [(1, [cell() for _ in rows]) for _ in range(16)]
    nevers = [[cell() for _ in rows] for _ in range(8)]
    return page(names(10), rows, columns, nevers, default=1)


def some(rng, share):
    """A set of names of 0 to 31: name 0, and each other with this share of all."""
    return "{" + ",".join(str(n) for n in range(32) if n == 0 or rng.random() < share) + "}"


def two_names():
    """Two names of each flight with 32 starts: 1,048,576 encounters, of which few in a row meet the same columns."""
    rng = random.Random(5)
    two = ["flight names 0 31"] * 2
    rows = [(q, mode) for q in range(2) for _ in range(4) for mode in "AB"]
    columns = [(1, [some(rng, 0.75) if rng.random() < 0.5 else "." for _ in rows]) for _ in range(16)]
    yield "names-two", page(two, rows, columns, default=1)
    # a lopsided answer where A and B have 31 and 31, and 30 and 31: all before must be gone through
    rows = [(0, "A"), (0, "B"), (1, "A"), (1, "B")] + [(0, "either")] * 6 + [(1, "either")] * 6
    columns = [(5, ["."] * 4 + [some(rng, 0.875) for _ in range(12)]) for _ in range(16)]
    last = ["{31}", "{31}", "{30}", "{31}"] + ["."] * 12
    yield "names-two-asymmetry", page(two, rows, columns, [last], default=5)


def wide():
    """One measure with many starts, for both flights: cells in every row, or in two rows alone."""
    rows = [(0, "both")] * 8 + [(0, "either")] * 8
    cells = iter(range(10_000))

    def band():
        k = next(cells)
        return f"{1000 + 37 * k}..{900_000 - 41 * k}"

    columns = [(1, [band() for _ in rows]) for _ in range(16)]
    nevers = [[f"{999_000 + 3 * i}..{999_001 + 3 * i}" for i in range(16)] for _ in range(8)]
    yield "measure-full-rows", page(["flight measure 0 1000000"], rows, columns, nevers, default=1)
    rows = [(0, "both")] * 16
    steps = [[f"{1000 * (16 * j + i)}..{1000 * (16 * j + i) + 400}" for i in range(16)] for j in range(16)]
    yield "measure-steps", page(["flight measure 0 1000000"], rows, [(1, s) for s in steps], default=1)
    # a ladder of bands in one row: one band to a column, so each start meets others
    yield "measure-ladder", page(["flight measure 0 1000000"], [(0, "A"), (0, "B")],
                                 [(1, [f"{100 * j}..{500_000 + 100 * j}", "."]) for j in range(8)]
                                 + [(1, [".", f"{100 * j}..{500_000 + 100 * j}"]) for j in range(8)], default=1)


def pairs():
    """Quantities of the pair with some hundred starts or with 32 each, and two flight measures."""
    rows = [(q, "pair") for q in range(3) for _ in range(5)]
    columns = []
    for j in range(10):
        columns.append((1, [f"{10 * (10 * (i % 5) + j) + 5}..{2000 - 7 * j - i}" for i in range(15)]))
    yield "pairs-three", page(["pair measure 0 3000"] * 3, rows, columns, default=1)
    rows = [(q, "pair") for q in range(4) for _ in range(4)]
    columns = [(1, [f"{100 * j + i % 4}..{100 * j + 60 + i % 4}" for i in range(16)]) for j in range(4)]
    yield "pairs-four", page(["pair measure 0 3000"] * 4, rows, columns, default=1)
    # two flight measures, 30 starts each
    rows = [(0, "both"), (0, "either"), (1, "both"), (1, "either")]
    columns = [(1, [f"{10 * j}..{1000 + 10 * j}", ".", f"{20 * j}..{1000 + 20 * j}", "."]) for j in range(15)]
    yield "measures-two", page(["flight measure 0 3000"] * 2, rows, columns, default=1)


def beyond():
    """Counts above the limit."""
    both = [(q, "both") for q in range(10)]
    rows = both + [(10, "pair")]
    yield "count-just-above", page(names(10) + names(1, "pair"), rows, [(1, ["{1}"] * 11)], default=5)
    rows = [(q, "both") for q in range(16)]
    columns = [(1, [f"{100 * j}..{100 * j + 50}" for _ in rows]) for j in range(16)]
    yield "count-far-above", page(["flight measure 0 3000"] * 16, rows, columns, default=5)


def main():
    if len(sys.argv) != 2:
        sys.exit("usage: bench/heavy.py FOLDER")
    folder = sys.argv[1]
    os.makedirs(folder, exist_ok=True)
    pages = list(ten_names()) + [(f"full-{seed}", full(seed)) for seed in (1, 2)] + list(two_names()) + list(wide()) + list(pairs()) + list(beyond())
    for name, text in pages:
        with open(os.path.join(folder, name + ".page"), "w", encoding="ascii") as out:
            out.write(text)


main()
