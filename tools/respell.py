#!/usr/bin/env python3
"""Spells this repository's own definitions and lemmas as today's Rattle does: words in snake case, types in camel case.

usage: python3 tools/respell.py [FOLDER]     once, at the top, after the kit's port.py

    sortOf -> sort_of, applyAll-empty -> apply_all-empty, noNames -> no_names

It goes over crates/ (.rt, .antt, .edit) and the pages (README.md, docs/ but docs/notes, which tell of the past). Code has no such names: types begin with a capital
letter, functions and variables were in snake case. Where a lemma would fall together with a word, the lemma keeps its dash (APART).
"""

import os
import re
import sys

NAME = re.compile(r"(?<![\w'\-·])[a-z][\w'\-]*")
PART = re.compile(r"([a-z0-9])([A-Z])")
# Lemmas that port.py wrote with an underscore, and words that would fall together with them.
APART = {
    "crates/record/specs/Forms.antt": {"no_names": "no-names"},
    "crates/record/specs/Sizes.antt": {"no_names": "no-names"},
    "crates/abstraction/specs/RankNames.antt": {"same_count": "same-count"},
    "crates/check_operator/specs/RuleLaws.antt": {"same_count": "same-count"},
    "crates/reader/specs/Was.antt": {"by_number": "by-number"},
}


def snake(name):
    """A name with each part that begins in lower case in snake case; a part that begins with a capital is a type's name."""
    parts = [PART.sub(lambda m: m.group(1) + "_" + m.group(2).lower(), p) if re.match("[a-z]", p) else p for p in name.split("-")]
    return "-".join(parts)


def files(root):
    for top in ("crates", "docs"):
        for folder, dirs, names in os.walk(os.path.join(root, top)):
            dirs[:] = sorted(d for d in dirs if d not in ("out", "notes"))
            for n in sorted(names):
                if n.endswith((".rt", ".antt", ".edit", ".md")):
                    yield os.path.join(folder, n)
    yield os.path.join(root, "README.md")


def main(root):
    changed = 0
    for path in files(root):
        with open(path, encoding="utf-8") as f:
            old = f.read()
        apart = APART.get(os.path.relpath(path, root), {})
        new = NAME.sub(lambda m: snake(apart.get(m.group(0), m.group(0))), old)
        if new != old:
            changed += 1
            with open(path, "w", encoding="utf-8") as f:
                f.write(new)
    print(f"respell: {changed} files")


if __name__ == "__main__":
    main(sys.argv[1] if len(sys.argv) > 1 else ".")
