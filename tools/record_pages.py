#!/usr/bin/env python3
"""Writes the recorded sheets of crates/replay_page with the pages that they must print, and those of crates/napsilo_page.

usage: record_pages.py MODEL        MODEL is the command of rust/model: `cargo build --release --offline -p model` writes rust/target/release/model

The sheets are chosen from those that crates/replay and crates/replay_lent have recorded, or are made here. The expected pages come from the model
alone, never from the programs. The same bytes are written each time.
"""
import os
import shutil
import struct
import subprocess
import sys

from sheets import APP, APPLY, COMPATIBLE, FUN, INTEGER, LEAF, MATCH, OP, PAR, SET, SIZED, TUPLE, TVAR, VAR, sheet, u16

TOP = os.path.join(os.path.dirname(os.path.abspath(__file__)), "..")
WIDTH, PAGE = 36, 60
# The longest recorded sheet that is looked at, in bytes, and the longest page that is chosen, in lines.
MOST_BYTES, MOST_LINES = 2000, 4 * PAGE

INT, BOOL = 0, 1
ATOM = lambda n: bytes([19, 1]) + u16(n) + bytes([0])


def said(model, command, data):
    """What the model prints for a sheet."""
    return subprocess.run([model, command], input=data, stdout=subprocess.PIPE, check=True).stdout.decode("ascii")


# ---------------------------------------------------------------- chosen sheets


def recorded(crate, head, length):
    """The sheets of a crate's recorded ones, each behind a head that ends in its length."""
    with open(f"{TOP}/crates/{crate}/data/sheets.bin", "rb") as f:
        data = f.read()
    found, at = [], 0
    while at < len(data):
        size = struct.unpack_from(head, data, at)[length]
        at += struct.calcsize(head)
        found.append(data[at : at + size])
        at += size
    return found


def texts(line):
    """The two texts of a row's line `Tk inferred checked`: the first ends at the first blank outside of all brackets."""
    _, both = line.split(" ", 1)
    depth = 0
    for at, letter in enumerate(both):
        depth += (letter in "([") - (letter in ")]")
        if letter == " " and depth == 0:
            return both[:at], both[at + 1 :]


def text_features(text, column):
    """What a text shows: its cause or its first word, its height, how full its last line is, and the blanks at its breaks."""
    word = text if text[0] == "!" else text.split(" ")[0].rstrip("0123456789)]")
    breaks = range(WIDTH, len(text), WIDTH)
    yield column, word
    yield column, "height", min(-(-len(text) // WIDTH), 8)
    yield column, "last line", min(len(text), WIDTH) == WIDTH and len(text) % WIDTH
    for at in breaks:
        yield column, "break", text[at - 1] == " ", text[at] == " "


def features(printout):
    """What the printout of a sheet shows that a page could get wrong."""
    lines = printout.splitlines()
    if lines and lines[0][0] == "!":
        return {("refused", lines[0])}
    rows = [texts(line) for line in lines if line[0] == "T"]
    high = [max(-(-len(text) // WIDTH) for text in both) for both in rows]
    found = {("rows", min(len(rows), 3), len(rows) < len(lines)), ("pages", -(-sum(high) // PAGE)), ("lines", sum(high) % PAGE)}
    for both in rows:
        found.add(("heights", *(min(-(-len(text) // WIDTH), 3) for text in both)))
        found |= {feature for column, text in enumerate(both) for feature in text_features(text, column)}
    return found if sum(high) <= MOST_LINES else set()


def chosen(model, most):
    """At most so many recorded sheets: each shows what none before it shows, those that show most of it first."""
    sheets = recorded("replay", "<I", 0) + recorded("replay_lent", "<5H", 4)
    short = [data for data in dict.fromkeys(sheets) if len(data) <= MOST_BYTES]
    shown = [(features(said(model, "print", data)), data) for data in short]
    found, seen = [], set()
    while len(found) < most:
        show, data = max(shown, key=lambda each: len(each[0] - seen))
        if show <= seen:
            break
        seen |= show
        found.append(data)
    return found


# ---------------------------------------------------------------- made sheets


class Sorts:
    """The sorts of a sheet: Int, Bool, and those whose texts have a given length."""

    def __init__(self):
        self.records, self.by_length = [LEAF(4), LEAF(3)], {}

    def add(self, record):
        self.records.append(record)
        return len(self.records) - 1

    def of_length(self, length):
        """A sort whose text has so many bytes, from 2 on: a name, or a function of up to 64 of about equal length."""
        if length not in self.by_length:
            self.by_length[length] = self.add(ATOM(10 ** (length - 2)) if length <= 6 else FUN(*self.parts(length - 4)))
        return self.by_length[length]

    def parts(self, left):
        """The parts of a function's text, each behind a blank, that have so many bytes together."""
        count = max(2, -(-left // 7)) if left <= 64 * 7 else 64
        return [self.of_length((left + at) // count - 1) for at in range(count)]


def lengths(given, refused):
    """Rows whose texts have these lengths: of both columns, or of the inferred one beside a refused checked one."""
    sorts = Sorts()
    tops = [sorts.of_length(length) for length in given]
    if not refused:
        return sheet(sorts.records, [TVAR(1, top) for top in tops])
    # A plain function of an Int, of a Bool: the inferred row does not look at the argument.
    heads = [TVAR(2, sorts.add(FUN(INT, top))) for top in tops]
    terms = [TVAR(1, BOOL)] + heads
    return sheet(sorts.records, terms + [APP(1 + at, 0) for at in range(len(heads))])


def ints(count, last=()):
    """So many variables of sort Int, and others whose texts have these lengths."""
    sorts = Sorts()
    tops = [sorts.of_length(length) for length in last]
    return sheet(sorts.records, [TVAR(1, INT)] * count + [TVAR(1, top) for top in tops])


def questions(terms):
    """Questions of each kind and outcome, and so many terms."""
    sorts = [LEAF(4), LEAF(3), VAR(1), SET(2), SET(0), PAR([1], 2)]
    asked = [COMPATIBLE(0, 0), COMPATIBLE(0, 1), MATCH(3, 4, 2, [1]), MATCH(3, 0, 2, [1]), MATCH(5, 5, 2, [1]), APPLY(3, [1], [0])]
    return sheet(sorts, [TVAR(1, INT)] * terms, asked)


def below():
    """Rows that are refused below one another, with long texts between."""
    sorts = Sorts()
    long, head = sorts.of_length(80), sorts.add(FUN(INT, BOOL))
    terms = [TVAR(1, long), TVAR(2, head), APP(1, 0), OP(4, 2, 2), TVAR(1, long), OP(4, 3, 2)]
    return sheet(sorts.records, terms)


def full():
    """A sheet whose sorts nearly fill the store, 136 bytes each but for the first ones, so that the answer of an App finds no room."""
    sorts = [LEAF(4), VAR(1), TUPLE(*[1] * 64), FUN(1, 2), PAR([1], 3)]
    sorts += [PAR(range(i, i + 64), 0) for i in range(2, 482)]
    return sheet(sorts, [TVAR(1, 4), INTEGER(0), APP(0, 1), TVAR(2, 5), APP(2, 1)])


def over(names):
    """Sorts that fill the program's store but for what a Par of so many names takes: with 54 to the last byte, with one more it is too much."""
    sorts = [LEAF(4)] + [PAR(range(i, i + 64), 0) for i in range(1, 482)] + [PAR(range(names), 0)]
    return sheet(sorts, [INTEGER(7), LEAF(1)])


def sized(right):
    """Sorts with their tree sizes written and without, a variable of each; the last size is right or is not."""
    sorts = [LEAF(4), SIZED(LEAF(4), 1), SIZED(TUPLE(0, 1, 1), 4), SET(2), SIZED(PAR([1, 2], 3), 6), SIZED(FUN(2, 4), 11 if right else 10)]
    return sheet(sorts, [TVAR(1, sort) for sort in range(len(sorts))])


def made():
    """The sheets that are made for the page: at the edges of a column, of a page and of a sheet."""
    edges = [35, 36, 37, 71, 72, 73, 107, 108, 109]
    yield sheet([], [])
    yield sheet([LEAF(4)], [])
    yield questions(0)
    yield questions(1)
    yield from (lengths([length], False) for length in (35, 36, 37, 72, 73))
    yield from (lengths([length], True) for length in (35, 36, 37, 72, 73))
    yield lengths(edges, False)
    yield lengths(edges, True)
    yield lengths(edges[::-1] * 2, True)
    yield from (ints(count) for count in (59, 60, 61, 119, 120, 121))
    # 60 lines and 61 by a row of two and of three, which runs over the end of the page.
    yield from (ints(58, [length]) for length in (36, 37, 72, 73, 108))
    yield ints(30, [37] * 15)
    yield ints(31, [37] * 15)
    # Rows of 60 lines, of 61 and of more; a tree size over its limit.
    yield from (lengths([length], False) for length in (2159, 2160, 2161, 5003, 10007))
    yield lengths([4321], True)
    yield lengths([28996], False)
    yield below()
    yield full()
    yield over(54)
    yield over(55)
    yield sized(True)
    yield sized(False)
    # As many terms as a sheet holds.
    yield ints(4096)


# ---------------------------------------------------------------- files


def main():
    model, = sys.argv[1:]
    sheets = list(dict.fromkeys(chosen(model, 60) + list(made())))
    for folder in ("replay_page/data", "napsilo_page"):
        os.makedirs(f"{TOP}/crates/{folder}", exist_ok=True)
    with open(f"{TOP}/crates/replay_page/data/sheets.bin", "wb") as out:
        out.write(b"".join(struct.pack("<I", len(data)) + data for data in sheets))
    with open(f"{TOP}/crates/replay_page/stdout", "w") as out:
        for k, data in enumerate(sheets):
            out.write(f"# {k}\n" + said(model, "page", data))
    shutil.copyfile(f"{TOP}/examples/session.sheet", f"{TOP}/crates/napsilo_page/stdin")
    with open(f"{TOP}/examples/session.sheet", "rb") as f, open(f"{TOP}/crates/napsilo_page/stdout", "w") as out:
        out.write(said(model, "page", f.read()))
    print(f"{len(sheets)} sheets")


main()
