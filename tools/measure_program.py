#!/usr/bin/env python3
"""Measures the program on sheets that are made here: processor time, the start of the process included, and memory.

usage: measure_program.py PROGRAM [RUNS]                the table "The program" of docs/PERFORMANCE.md
       measure_program.py turns PROGRAM OTHER [RUNS]    the program in turns with another build of it, on the same sheets
       measure_program.py page PROGRAM PAGES [RUNS]     the program in turns with the one that prints pages, on the sheets with the longest texts
       measure_program.py write FOLDER                  writes the sheets that take longest into a folder and prints their paths, for `bench judge`

What is printed is thrown away after its length is counted once, by `turns` after it is compared.
"""
import hashlib
import os
import statistics
import subprocess
import sys
import tempfile

from sheets import (
    APP, APPLY, ARRAY, BINDER, BITS, BV, CONTINUE, FUN, INTEGER, LEAF, MATCH, OP, PAR, SET, TUPLE, TVAR, VAR, equal_hashes,
    sheet
)


def mixed(n):
    """Terms of many kinds that refer to recent terms; 65,536 bytes where n is 4,096."""
    sorts = [LEAF(3), LEAF(4), LEAF(5), BV(8), BV(16), VAR(1), FUN(1, 1, 0), FUN(5, 5, 5), None]
    sorts[8] = PAR([1], 7)
    terms = [INTEGER(1), TVAR(2, 0), TVAR(3, 3), TVAR(4, 4), TVAR(5, 6), TVAR(6, 8), TVAR(7, 2)]
    i = 0
    while len(terms) < n:
        t = len(terms)
        kind = i % 8
        last = t - 1
        if kind == 0:
            terms.append(OP(10, 0, 0, 0))
        elif kind == 1:
            terms.append(OP(17, 0, last, 0, last))
        elif kind == 2:
            terms.append(OP(4, 1, last, 1, last))
        elif kind == 3:
            terms.append(OP(83, 2, 2, 2, 2))
        elif kind == 4:
            terms.append(OP(90, 2, 3))
        elif kind == 5:
            terms.append(APP(4, 0, 0))
        elif kind == 6:
            terms.append(APP(5, 0, 0))
        else:
            terms.append(OP(9, 1, 0, 0))
        i += 1
    made = sheet(sorts, terms)
    if n == 4096:
        # up to 65,536 bytes: as many sorts as a sheet holds, each of its own, then arguments of two bytes more for sums
        sorts += [BV(100 + i) for i in range(2047 - len(sorts))] + [SET(1)]
        made = sheet(sorts, terms)
        short = (65536 - len(made)) // 2
        for t in range(7, n, 8):
            more = min(short, 8)
            terms[t] = OP(10, *[0] * (3 + more))
            short -= more
        made = sheet(sorts, terms)
    return made


def deep(n):
    """Seven terms fewer than n, each a set of the one before it: row t is t levels deep. Then a parametric function over the deepest."""
    sorts = [VAR(1), VAR(2), SET(0), FUN(1, 2), None, None, None]
    sorts[4] = PAR([2], 3)
    sorts[5] = FUN(0, 4)
    sorts[6] = PAR([1], 5)
    m = n - 11
    terms = [INTEGER(7)] + [OP(123, i) for i in range(m)]
    terms += [TVAR(9, 6), APP(m + 1, m), APP(m + 2, 0)]
    return sheet(sorts, terms)


def long(n):
    """Every row a text near the longest: a Function of 64 chains of 62 Pars of 64 names of five digits. The checked row is refused (28)."""
    sorts = [LEAF(4)]
    for i in range(62):
        sorts.append(PAR([65535 - 64 * (i % 4) - j for j in range(64)], len(sorts) - 1))
    sorts.append(FUN(*([len(sorts) - 1] * 64)))
    top = len(sorts) - 1
    return sheet(sorts, [TVAR(1, top) for _ in range(n)])


def sunk(n):
    """Every row a long text below 1,900 sets: each piece of it is come to through all of them. The checked row is refused (28)."""
    sorts = [LEAF(4)]
    for i in range(33):
        sorts.append(PAR([65535 - 64 * (i % 4) - j for j in range(64)], len(sorts) - 1))
    sorts.append(FUN(*([len(sorts) - 1] * 64)))
    for _ in range(1900):
        sorts.append(SET(len(sorts) - 1))
    return sheet(sorts, [TVAR(1, len(sorts) - 1)] * n)


def both(n):
    """Every row a text near the longest that a checked row can have too: 63 tuples of 64 bit-vectors of five digits."""
    sorts = [BV(65535), TUPLE(*[0] * 64), TUPLE(*[1] * 63)]
    return sheet(sorts, [TVAR(1, 2)] * n)


def sets(n):
    """Every row but two a chain of 4,076 sets, 2,038 of the sheet's in which an App replaces."""
    sorts = [VAR(1)] + [SET(i) for i in range(2038)]
    sorts += [FUN(0, 2038), PAR([1], 2039)]
    return sheet(sorts, [TVAR(1, 2038), TVAR(2, 2040)] + [APP(1, 0)] * (n - 2))


def wide(n):
    """A parametric function whose result is a tree of 4,033 nodes: each App walks it."""
    sorts = [VAR(1), TUPLE(*[0] * 62), TUPLE(*[1] * 64), FUN(0, 2), PAR([1], 3)]
    return sheet(sorts, [INTEGER(1), TVAR(2, 4)] + [APP(1, 0) for _ in range(n - 2)])


def chain(params, length):
    """The sorts of a function of so many parameters whose result is a chain of Arrays over them: `length` sorts, the last its Par."""
    sorts = [LEAF(4)] + [VAR(1 + i) for i in range(params)] + [ARRAY(1, params)]
    while len(sorts) < length - 2:
        sorts.append(ARRAY(len(sorts) - 1, 0))
    names = list(range(1, params + 1))
    return sorts + [FUN(*names, len(sorts) - 1), PAR(names, len(sorts))]


def filled():
    """A function of one parameter, and terms that leave too little room for its answer: an integer, and vectors, whose sorts come behind."""
    sorts = chain(1, 2047)
    return sorts, [TVAR(1, len(sorts) - 1), INTEGER(0)] + [BITS(1000 + i) for i in range(10)]


def again():
    """One App, again and again, whose answer has no room in the store."""
    sorts, terms = filled()
    return sheet(sorts, terms + [APP(0, 1)] * (4096 - len(terms)))


def turns(questions=0):
    """Two such Apps in turn, which share a slot of the table of Apps: their arguments' store numbers are 128 apart."""
    sorts, terms = filled()
    apps = [APP(0, 1 if i % 2 else 3) for i in range(4096 - len(terms))]
    return sheet(sorts, terms + apps, [APPLY(len(sorts) - 3, [1], [0])] * questions)


def turns_and_questions():
    """The same, and 1,024 questions for what such an App would give, which are not looked up."""
    return turns(1024)


def unlike():
    """Such Apps, no two of them alike: of two arguments out of 62 each."""
    sorts = chain(2, 2046)
    terms = [TVAR(1, len(sorts) - 1)] + [BITS(1000 + i) for i in range(62)]
    return sheet(sorts, terms + [APP(0, 1 + i % 62, 1 + i // 62) for i in range(62 * 62)])


def own():
    """Such Apps whose first parameter is bound to its own variable, which match_with leaves out: the checked row looks for a Par in what remains."""
    sorts = chain(3, 2046)
    terms = [TVAR(1, len(sorts) - 1), TVAR(9, 1)] + [BITS(1000 + i) for i in range(61)]
    return sheet(sorts, terms + [APP(0, 1, 2 + i % 61, 2 + i // 61) for i in range(61 * 61)])


def equal():
    """Apps as in `unlike`, of 63 heads and 63 arguments: each makes 1,600 Pars over Int of one hash, that of 60 which stand on the sheet."""
    found = equal_hashes(2047)[:1660]
    sorts = [LEAF(4), VAR(1), VAR(2)] + [PAR(those, 1) for those in found[:1600]]
    parts = range(3, len(sorts))
    sorts += [TUPLE(*parts[i:i + 64]) for i in range(0, len(parts), 64)]
    sorts += [TUPLE(*range(parts.stop, len(sorts))), ARRAY(1, 2), FUN(len(sorts) + 1, len(sorts))]
    first = len(sorts)
    sorts += [PAR([1, 2, 3 + i], first - 1) for i in range(63)] + [ARRAY(0, i) for i in range(63)]
    terms = [TVAR(1, i) for i in range(first, len(sorts))]
    apps = [APP(i % 63, 63 + i // 63) for i in range(63 * 63)]
    return sheet(sorts + [PAR(those, 0) for those in found[1600:]], terms + apps)


def read():
    """As many sorts as a sheet holds, all but one of one hash."""
    return sheet([LEAF(4)] + [PAR(those, 0) for those in equal_hashes(2047)], [INTEGER(0)])


def over(sorts, leaf, levels):
    """Appends Arrays, each over the one before: the first over `leaf`, the second part of each Int."""
    for _ in range(levels):
        sorts.append(ARRAY(leaf, 0))
        leaf = len(sorts) - 1
    return leaf


def heads(sorts, params, function):
    """Appends 20 heads that differ in a name that they do not use, and gives their terms."""
    sorts.append(function)
    body = len(sorts) - 1
    sorts += [PAR(params + [10 + i], body) for i in range(20)]
    return [TVAR(1, body + 1 + i) for i in range(20)]


def too_large():
    """Apps of 20 heads and 30 arguments, each refused for the size of its answer (22), a sum over 1,988 Arrays."""
    sorts = [LEAF(4), VAR(1)] + [ARRAY(i, 1) for i in range(1, 1989)]
    terms = heads(sorts, [1], FUN(1, 1989))
    sorts += [TUPLE(*[0] * (3 + i)) for i in range(30)]
    terms += [TVAR(2, len(sorts) - 30 + i) for i in range(30)]
    return sheet(sorts, terms + [APP(i % 20, 20 + i // 20 % 30) for i in range(4096 - len(terms))])


def binders():
    """Quantifiers of 64 bindings each, whose sorts are all tested down to the last of 2,043 Arrays."""
    sorts = [LEAF(4), LEAF(3)]
    top = over(sorts, 0, 2043)
    return sheet(sorts, [TVAR(1, 1)] + [BINDER(0, [(1, top)] * 64, 0)] * 189)


def variables():
    """4,096 variables of such a sort, which is tested for each."""
    sorts = [LEAF(4), LEAF(3)]
    top = over(sorts, 0, 2043)
    return sheet(sorts, [TVAR(1, top)] * 4096)


def late(leaf, result):
    """Apps of 20 heads and 180 first arguments, whose second one is compared down to the last of 990 Arrays."""
    sorts = [LEAF(4), LEAF(3), VAR(1), VAR(2), VAR(3)]
    pattern, target = over(sorts, leaf, 990), over(sorts, 1, 990)
    terms = heads(sorts, [1, 2, 3], FUN(3, pattern, result)) + [TVAR(2, target)] + [BITS(1000 + i) for i in range(180)]
    return sheet(sorts, terms + [APP(i % 20, 21 + i // 20, 20) for i in range(3600)])


def misfit():
    """Such Apps, of which the last part does not fit (21 and 26)."""
    return late(0, 1)


def unassigned():
    """Such Apps, whose result keeps a parameter (27)."""
    return late(2, 4)


def matches():
    """1,024 questions to match two chains of 1,020 Arrays each, and to replace in the first."""
    sorts = [LEAF(4), LEAF(3), VAR(1)]
    pattern, target = over(sorts, 2, 1020), over(sorts, 1, 1020)
    return sheet(sorts, [INTEGER(0)], [MATCH(pattern, target, pattern, [1])] * 1024)


def greatest(sorts, count):
    """Appends so many sorts of 4,096 nodes, and gives their numbers. Nearly all nodes are one variable, and the part that all share is the last one at every
    level, so that it is walked from each."""
    sorts.append(VAR(200))
    leaf = top = len(sorts) - 1
    for leaves in [63] * 63 + [60]:
        sorts.append(TUPLE(*[leaf] * leaves, top))
        top = len(sorts) - 1
    roots = []
    for i in range(count):
        sorts += [BV(1 + i), ARRAY(len(sorts), top)]
        roots.append(len(sorts) - 1)
    return roots


def given():
    """140 questions in which 64 such sorts are given for parameters that the pattern lacks: each is tested for each question."""
    sorts = [LEAF(4), VAR(1)]
    roots = greatest(sorts, 64)
    pairs = list(enumerate(roots, 1))
    return sheet(sorts, [INTEGER(0)], [CONTINUE(0, 0, 1, pairs, range(1, 65))] * 140)


def given_variables():
    """120 questions to match a pattern of 4,096 nodes, nearly all of them 64 parameters that are given, and to replace in it."""
    sorts = [LEAF(4)] + [VAR(i) for i in range(1, 65)] + [BV(i) for i in range(1, 65)]
    rows = [[first + (i + j) % 64 for j in range(64)] for first in (1, 65) for i in range(63)]
    sorts += [TUPLE(*row) for row in rows] + [TUPLE(*range(129 + i, 129 + i + 63)) for i in (0, 63)]
    pattern, target = len(sorts) - 2, len(sorts) - 1
    pairs = [(i, 64 + i) for i in range(1, 65)]
    return sheet(sorts, [INTEGER(0)], [CONTINUE(pattern, target, pattern, pairs, range(1, 65))] * 120)


def given_matches():
    """The questions of `matches`, with what is found given, and such a sort of 4,096 nodes for another parameter."""
    sorts = [LEAF(4), LEAF(3), VAR(1)]
    pattern, target = over(sorts, 2, 980), over(sorts, 1, 980)
    root, = greatest(sorts, 1)
    return sheet(sorts, [INTEGER(0)], [CONTINUE(pattern, target, pattern, [(2, root), (1, 1)], [1, 2])] * 1024)


def given_full():
    """1,024 questions whose answer, a chain over what is given, has no room in the store; four such sorts are given too."""
    sorts = [LEAF(4), VAR(1)]
    roots = greatest(sorts, 4)
    top = over(sorts, 1, 2048 - len(sorts))
    terms = [BITS(1000 + i) for i in range(200)]
    return sheet(sorts, terms, [CONTINUE(0, 0, top, [(1, 0), *enumerate(roots, 2)], range(1, 6))] * 1024)


def names():
    """Apps of 20 heads and 180 arguments that replace below 250 Pars of 64 names."""
    sorts = [LEAF(4), VAR(1), VAR(2), PAR(range(100, 164), 1)]
    sorts += [PAR(range(100 + i, 164 + i), 2 + i) for i in range(1, 250)]
    terms = heads(sorts, [1, 2], FUN(2, len(sorts) - 1)) + [BITS(1000 + i) for i in range(180)]
    return sheet(sorts, terms + [APP(i % 20, 20 + i // 20 % 180) for i in range(3896)])


def run(program, path, out):
    """The processor time that the program takes for a sheet, in ms."""
    with open(path, "rb") as stdin:
        child = subprocess.Popen([program], stdin=stdin, stdout=out)
        _, child.returncode, used = os.wait4(child.pid, 0)
        assert child.returncode == 0, path
    return (used.ru_utime + used.ru_stime) * 1000


def peak(program, path, out):
    """The largest resident size of the program in KiB, as GNU time tells it."""
    with open(path, "rb") as stdin:
        told = subprocess.run(["/usr/bin/time", "-f", "%M", program], stdin=stdin, stdout=out, stderr=subprocess.PIPE)
    return int(told.stderr.split()[-1])


def printed(program, path):
    """How many bytes the program prints."""
    with open(path, "rb") as stdin, subprocess.Popen([program], stdin=stdin, stdout=subprocess.PIPE) as child:
        return sum(len(piece) for piece in iter(lambda: child.stdout.read(1 << 20), b""))


def measure(program, data, runs):
    """The bytes that are printed for a sheet, the median time in ms and the largest size in KiB."""
    assert len(data) <= 65536, len(data)
    with tempfile.NamedTemporaryFile() as f, open(os.devnull, "wb") as sink:
        f.write(data)
        f.flush()
        times = [run(program, f.name, sink) for _ in range(runs)]
        return printed(program, f.name), statistics.median(times), peak(program, f.name, sink)


def digest(program, path):
    """A digest of what the program prints."""
    made = hashlib.sha256()
    with open(path, "rb") as stdin, subprocess.Popen([program], stdin=stdin, stdout=subprocess.PIPE) as child:
        for piece in iter(lambda: child.stdout.read(1 << 20), b""):
            made.update(piece)
    return made.digest()


def in_turns(programs, path, runs):
    """The times in ms that two programs take for a sheet, run in turns: so many runs of each, or more, until each took two seconds."""
    times = [], []
    with open(os.devnull, "wb") as sink:
        while len(times[0]) < runs or min(map(sum, times)) < 2000:
            first = len(times[0]) % 2
            for at in (first, 1 - first):
                times[at].append(run(programs[at], path, sink))
    return times


def alike_in_turns(programs, data, runs):
    """The same of two programs that must print the same bytes for this sheet."""
    with tempfile.NamedTemporaryFile() as f:
        f.write(data)
        f.flush()
        assert digest(programs[0], f.name) == digest(programs[1], f.name), "they print different bytes"
        return in_turns(programs, f.name, runs)


CASES = [(mixed, 256), (mixed, 4096), (deep, 256), (deep, 4096), (wide, 4096), (long, 256)]
LONGEST = [(mixed, 4096), (deep, 4096), (sets, 4096), (wide, 4096), (both, 4096), (sunk, 256), (long, 256), (long, 4096)]
PAGE = 60 * 81
WORST = [own, turns_and_questions, turns, unlike, equal, too_large, binders, matches, variables, unassigned, misfit, names, again, read,
         given, given_variables, given_matches, given_full]


def write(folder):
    """Writes the worst sheets and prints their paths."""
    for make in WORST:
        with open(os.path.join(folder, make.__name__), "wb") as f:
            f.write(make())
        print(f.name)


def turns_with(programs, runs):
    """Prints for each sheet the medians of both programs and their ratio, and that of the least times."""
    print("| sheet | terms | runs | ms | other, ms | ratio | of the least |")
    print("|---|---|---|---|---|---|---|")
    for make, n in CASES:
        data = make(n)
        times = alike_in_turns(programs, data, runs)
        one, two = map(statistics.median, times)
        terms = int.from_bytes(data[2:4], "little")
        least = min(times[0]) / min(times[1])
        print(f"| {make.__name__} | {terms:,} | {len(times[0])} | {one:,.1f} | {two:,.1f} | {one / two:.2f} | {least:.2f} |", flush=True)


def pages_beside(programs, runs):
    """Prints for each of the sheets with the longest texts the bytes a second of the program and of the one that prints pages, and the ratio."""
    print("| sheet | rows | runs of each | printed MB | MB of pages | ms | ms of pages | MB/s | MB/s of pages | ratio |")
    print("|---|---|---|---|---|---|---|---|---|---|")
    for make, n in LONGEST:
        data = make(n)
        with tempfile.NamedTemporaryFile() as f:
            f.write(data)
            f.flush()
            sizes = [printed(program, f.name) for program in programs]
            assert sizes[1] > 0 and sizes[1] % PAGE == 0, "whole pages"
            times = in_turns(programs, f.name, runs)
        one, two = map(statistics.median, times)
        rows = int.from_bytes(data[2:4], "little")
        millions = " | ".join(f"{size / 1e6:,.1f}" for size in sizes)
        speeds = sizes[0] / one / 1e3, sizes[1] / two / 1e3
        print(f"| {make.__name__} | {rows:,} | {len(times[0])} | {millions} | {one:,.1f} | {two:,.1f} "
              f"| {speeds[0]:,.0f} | {speeds[1]:,.0f} | {speeds[1] / speeds[0]:.2f} |", flush=True)


def main():
    program, *rest = sys.argv[1:]
    if program == "write":
        return write(rest[0])
    if program == "turns":
        return turns_with(rest[:2], int(rest[2]) if rest[2:] else 5)
    if program == "page":
        return pages_beside(rest[:2], int(rest[2]) if rest[2:] else 3)
    runs = int(rest[0]) if rest else 5
    print("| sheet | terms | bytes | printed bytes | ms | peak KiB |")
    print("|---|---|---|---|---|---|")
    for make, n in CASES:
        data = make(n)
        size, ms, most = measure(program, data, runs)
        terms = int.from_bytes(data[2:4], "little")
        print(f"| {make.__name__} | {terms:,} | {len(data):,} | {size:,} | {ms:,.1f} | {most:,} |", flush=True)


if __name__ == "__main__":
    main()
