#!/usr/bin/env python3
"""Measures the stack that the program needs on the deepest sheets that are known: the least limit (`ulimit -s`) under which it runs to its end.

usage: measure_stack.py PROGRAM [SHEET..]
       measure_stack.py beside PROGRAM OTHER [SHEET..]     two programs, a column for each
       measure_stack.py write FOLDER        writes the sheets into a folder and prints their paths, for `bench stack`

Without sheets they are the four deep ones that crates/replay_lent has recorded, and those that are made here, as rust/beside/tests/stack.rs makes
them: a chain of layers over a variable is doubled by an App, up to the 4,096 nodes of a tree, is then pattern and, moved by a period, target, and is
replaced in, compared, tested and printed; and a chain of the sheet's own sorts, which goes through both rows. The environment is empty, since it
stands on the stack too.
"""
import os
import resource
import struct
import subprocess
import sys
import tempfile

from sheets import APP, ARRAY, COMPATIBLE, FUN, INTEGER, LEAF, MATCH, PAR, SET, TVAR, VAR, sheet

INT, BOOL, FIRST, SECOND = range(4)
BASE = [LEAF(4), LEAF(3), VAR(1), VAR(2)]
# What stands around a sort, and how many nodes of a tree that takes: a set of it, a Par over it, an array of which it is the first part (f) or the
# last (l).
LAYERS = {
    "s": (SET, 1),
    "p": (lambda x: PAR([3], x), 1),
    "f": (lambda x: ARRAY(x, INT), 2),
    "l": (lambda x: ARRAY(INT, x), 2),
}
PERIODS = ["s", "p", "f", "l", "sp", "fp", "pf", "lp", "fl", "s" + 15 * "p", "f" + 15 * "p"]


class Sorts:
    """The sorts of a sheet, with a chain of `count` periods over the first variable and another of one."""

    def __init__(self, period, count):
        self.records = list(BASE)
        self.deep = self.chain(period * count)
        self.one = self.chain(period)

    def add(self, record):
        self.records.append(record)
        return len(self.records) - 1

    def chain(self, layers):
        sort = FIRST
        for layer in reversed(layers):
            sort = self.add(LAYERS[layer][0](sort))
        return sort

    def function(self, name, *list):
        return self.add(PAR([name], self.add(FUN(*list))))

    def questions(self):
        return [COMPATIBLE(self.deep, self.deep), MATCH(self.deep, self.deep, self.deep, [2])]


def periods_in(period, most):
    return min(most // sum(LAYERS[layer][1] for layer in period), 2000 // len(period))


def doubled(period):
    """A chain doubled by an App, then matched with itself moved by a period, and replaced in."""
    sorts = Sorts(period, periods_in(period, 2040))
    double = sorts.function(1, FIRST, sorts.deep)
    onwards = sorts.function(1, FIRST, sorts.one)
    asking = sorts.function(2, SECOND, sorts.function(1, SECOND, BOOL))
    giving = sorts.function(2, SECOND, sorts.function(1, FIRST, SECOND))
    terms = [TVAR(1, sorts.deep)] + [TVAR(2, s) for s in (double, onwards, asking, giving)] + [INTEGER(1)]
    terms += [APP(1, 0), APP(3, 6), APP(2, 6), APP(7, 8), APP(4, 6), APP(10, 5)]
    return sheet(sorts.records, terms, sorts.questions())


def declared(period):
    """A chain of the sheet's own sorts as a pattern, and replaced in, in both rows."""
    sorts = Sorts(period, periods_in(period, 4080))
    onwards = sorts.function(1, FIRST, sorts.one)
    asked = sorts.function(1, sorts.deep, BOOL)
    given = sorts.function(1, FIRST, sorts.deep)
    terms = [TVAR(1, s) for s in (sorts.deep, onwards, asked, given)] + [INTEGER(1)]
    terms += [APP(1, 0), APP(2, 5), APP(3, 4), APP(2, 7)]
    return sheet(sorts.records, terms, sorts.questions())


def runs(program, path, kib):
    """Whether the program runs to its end under this limit."""
    limit = lambda: resource.setrlimit(resource.RLIMIT_STACK, (kib * 1024, kib * 1024))
    with open(path, "rb") as stdin:
        done = subprocess.run([program], stdin=stdin, stdout=subprocess.DEVNULL, env={}, preexec_fn=limit)
    return done.returncode == 0


def least(program, path):
    """The least limit in KiB, to 16, under which the program runs to its end."""
    low, high = 0, 16384
    while high - low > 16:
        middle = (low + high) // 2
        low, high = (low, middle) if runs(program, path, middle) else (middle, high)
    return high


def recorded():
    """The deep sheets that stand last in crates/replay_lent: four lengths and the sheet's own before each."""
    found, at = [], 0
    with open(os.path.join(os.path.dirname(__file__), "../crates/replay_lent/data/sheets.bin"), "rb") as f:
        data = f.read()
    while at < len(data):
        length = struct.unpack_from("<5H", data, at)[4]
        found.append(data[at + 10 : at + 10 + length])
        at += 10 + length
    return dict(zip(("apply-4086", "nested-pars", "set-and-15-pars", "shifted-sets"), found[-4:]))


def sheets():
    """All deep sheets by name."""
    return recorded() | {f"{make.__name__}-{period}": make(period) for make in (doubled, declared) for period in PERIODS}


def write(folder):
    """Writes all deep sheets; their paths."""
    paths = []
    for name, data in sheets().items():
        paths.append(os.path.join(folder, name))
        with open(paths[-1], "wb") as f:
            f.write(data)
    return paths


def main():
    program, *paths = sys.argv[1:]
    if program == "write":
        return print(*write(paths[0]), sep="\n")
    programs, titles = [program], ["program"]
    if program == "beside":
        programs, paths = paths[:2], paths[2:]
        titles = [os.path.basename(program) for program in programs]
    with tempfile.TemporaryDirectory() as folder:
        print(f"| sheet | {' | '.join(titles)} |\n|---{'|---' * len(titles)}|")
        for path in paths or write(folder):
            needs = " | ".join(f"{least(program, path):,}" for program in programs)
            print(f"| {os.path.basename(path)} | {needs} |", flush=True)


main()
