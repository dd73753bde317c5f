#!/usr/bin/env python3
"""Writes the recorded sheets of crates/replay and crates/replay_lent, and what they must print, from files of vectors.

usage: record_vectors.py [--more] [--model MODEL] REPOSITORY PROGRAM_VECTORS.. -- LIBRARY_VECTORS..

The files have the form of program.txt and library.txt: `sheet HEX`, then the expected lines, each behind two blanks; in the
second form `lent records R places P rows W answers A` stands before the sheet. The expected output is taken from these files
alone, never from the programs. A sheet of PROGRAM_VECTORS that stands in several of them is recorded once, and must have the same lines in all.
With --more they are put behind those that are recorded already; a sheet of PROGRAM_VECTORS that is among these is left out.

With --model the expected output is not that of the files, but what the command of rust/model says to their sheets and lent lengths
(`cargo build --release --offline -p model` writes rust/target/release/model). Where a file says otherwise the vector is told, by its number in the file
from 0 on, with the lines that are others. A file may then be the bytes of one sheet, NAME.sheet, and in the second form R,P,W,A:NAME.sheet.
"""
import itertools
import os
import struct
import subprocess
import sys

# What is told of a line at most.
LONGEST = 100


def program(paths):
    """The program vectors: where each stands, the model's command for it, its sheet, its expected lines or None."""
    found = []
    for path in paths:
        if path.endswith(".sheet"):
            found.append((path, ["print"], open(path, "rb").read(), None))
            continue
        first = len(found)
        for line in open(path):
            line = line.rstrip("\n")
            if line.startswith("sheet"):
                found.append((f"{path} {len(found) - first}", ["print"], bytes.fromhex(line[5:].strip()), []))
            elif line.startswith("  "):
                found[-1][3].append(line[2:])
    return found


def library(paths):
    """The library vectors: where each stands, the model's command with the lent lengths, its sheet, its expected lines or None."""
    found = []
    for path in paths:
        if path.endswith(".sheet"):
            lengths, path = path.split(":", 1)
            found.append((path, ["lent", *lengths.split(",")], open(path, "rb").read(), None))
            continue
        first, lent = len(found), None
        for line in open(path):
            line = line.rstrip()
            if line.startswith("lent "):
                lent = ["lent", *line.split()[2::2]]
            elif line.startswith("sheet"):
                found.append((f"{path} {len(found) - first}", lent, bytes.fromhex(line[5:].strip()), []))
            elif line.startswith("  "):
                found[-1][3].append(line[2:])
    return found


def recorded(path):
    """The sheets of replay that are recorded already."""
    with open(path, "rb") as f:
        data = f.read()
    found, at = set(), 0
    while at < len(data):
        length, = struct.unpack_from("<I", data, at)
        found.add(data[at + 4 : at + 4 + length])
        at += 4 + length
    return found


def once(vectors, known):
    """The vectors whose sheets are not known, each where it stands first; its lines must be the same wherever it stands."""
    first = {}
    for vector in vectors:
        place, _, sheet, lines = vector
        if first.setdefault(sheet, vector)[3] != lines:
            raise SystemExit(f"other lines at {place} than at {first[sheet][0]}")
    return [vector for sheet, vector in first.items() if sheet not in known]


def anew(model, vector):
    """The vector with the lines that the model says; those that are others are told."""
    place, words, sheet, before = vector
    done = subprocess.run([model, *words], input=sheet, stdout=subprocess.PIPE, check=True)
    now = [line.rstrip() for line in done.stdout.decode("ascii").splitlines()]
    if before is not None and before != now:
        print(place)
        for old, new in itertools.zip_longest(before, now, fillvalue=""):
            if old != new:
                print(f"  {old[:LONGEST]} is now {new[:LONGEST]}")
    return place, words, sheet, now


def count(path):
    """How many sheets stand in a file of expected output."""
    return sum(line.startswith("# ") for line in open(path))


def write(folder, more, vectors):
    """Writes sheets, each behind its lent lengths and its own, and their expected lines behind their numbers."""
    first = count(f"{folder}/stdout") if more else 0
    with open(f"{folder}/data/sheets.bin", "ab" if more else "wb") as out:
        for _, words, sheet, _ in vectors:
            lent = [int(word) for word in words[1:]]
            out.write(struct.pack("<5H", *lent, len(sheet)) if lent else struct.pack("<I", len(sheet)))
            out.write(sheet)
    with open(f"{folder}/stdout", "a" if more else "w") as out:
        for k, (_, _, _, lines) in enumerate(vectors):
            out.write("".join(f"{line}\n" for line in [f"# {first + k}"] + lines))


def main():
    words = sys.argv[1:]
    more = words[0] == "--more"
    words = words[more:]
    model = words[1] if words[0] == "--model" else None
    repository, *paths = words[2:] if model else words
    cut = paths.index("--")
    replay, replay_lent = (os.path.join(repository, "crates", name) for name in ("replay", "replay_lent"))
    sheets = once(program(paths[:cut]), recorded(f"{replay}/data/sheets.bin") if more else set())
    lents = library(paths[cut + 1 :])
    if model:
        sheets, lents = ([anew(model, vector) for vector in vectors] for vectors in (sheets, lents))
    write(replay, more, sheets)
    write(replay_lent, more, lents)
    print(f"{len(sheets)} sheets, {len(lents)} with lent lengths")


main()
