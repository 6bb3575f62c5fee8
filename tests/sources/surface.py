#!/usr/bin/env python3
"""Writes surface.txt beside this file from the crates: their public calls, each with the names of its conditions and clauses, and the must-fail edits of its body.

usage: tests/sources/surface.py --write

test_surface.py compares the list with that. It needs Python 3.9 or later.
"""

import collections
import os
import re
import sys
import textwrap

from sources import TOP, calls, files, ghosts, read

# The calls without a clause, each with its reason.
UNTOLD = {"before of Gate": "no clause sees when a row runs; tests do", "after of Gate": "as before",
          "pause of RuledLock": "nothing is learnt by a sleep"}

LIST = "tests/sources/surface.txt"
HEAD = """# Public calls

Written by `tests/sources/surface.py --write`; the gate compares it with the sources. Each line has the calls of a type, a trait or a crate: in brackets the
names of a call's conditions (`_` has no name), then those of its clauses, or nothing for a single one without a name, or *untold* if it has none. Behind
*not* are the must-fail edits of its body, behind *ghost* the members of a trait that only contracts see, its laws among them. Calls of which it says the
same stand together.
"""
FUNCTION = re.compile(r"^ *(?:pub(?:\([^)]*\))? )?(?:extern \"C\" )?fn (\w+)", re.M)
OWNER = re.compile(r"^(?:impl\b(?:<(?:[^<>]|<[^<>]*>)*>)? (\w+)[^{]*\{|pub trait (\w+)|\})", re.M)


def edited(crate, path):
    """The function of a crate that an edit changes first, named as a call is."""
    file, old = re.search(r"^file: (.*)\n(?:.*\n)*?old: (.*)$", read(path), re.M).groups()
    before = read(os.path.join(crate, file)).partition(old)[0] + old
    name, owner = FUNCTION.findall(before)[-1:], OWNER.findall(before)[-1:]
    return " of ".join(filter(None, [*name, *map("".join, owner)]))


def edits_of(top, crate):
    """The names of a crate's edits, by the functions that they change."""
    found = collections.defaultdict(list)
    for tier in os.path.join(crate, "must-fail"), os.path.join(top, "edits", os.path.basename(crate)):
        for path in files(tier, "*.edit"):
            found[edited(crate, path)].append(os.path.basename(path)[:-5])
    return found


def said_of(call, edits):
    """What the list says of a call behind its name."""
    asked, told = (", ".join(it.name or "_" for it in call.function.clauses if it.kind == kind) for kind in ("requires", "ensures"))
    parts = ["" if told == "_" else told or "*untold*", edits[call.name] and f"*not* {', '.join(sorted(edits[call.name]))}"]
    return f"{asked and f'({asked})'} {', '.join(filter(None, parts))}".rstrip()


def section(top, crate, found):
    """What the list says of a crate with some calls."""
    edits, owners = edits_of(top, crate), collections.defaultdict(dict)
    for call in found:
        owner, laws = call.part.owner, ", ".join(ghosts(call.part.body)) * (call.part.owner not in call.part.head)
        if laws:
            owners[owner].setdefault(f" {laws}", ["*ghost*"])
        owners[owner].setdefault(said_of(call, edits), []).append(f"`{call.function.name}`")
    lines = [f"- {f'**`{owner}`**: ' * bool(owner)}{'; '.join(', '.join(names) + said for said, names in of.items())}." for owner, of in sorted(owners.items())]
    return f"\n## `{os.path.basename(crate)}`\n\n" + "".join(map(filled, lines))


def filled(line):
    return textwrap.fill(line, 140, subsequent_indent="  ", break_on_hyphens=False, break_long_words=False) + "\n"


def calls_of(top):
    """The public calls of each crate."""
    crates = [os.path.join(top, "crates", name) for name in re.findall(r"^\w+", read(top, "crates.txt"), re.M)]
    return {crate: calls(crate) for crate in crates}


def listed(top, found):
    return HEAD + "".join(section(top, crate, of) for crate, of in found.items() if of)


def untold(found):
    """The calls that have no clause, and are not excepted."""
    return [call.name for of in found.values() for call in of if not call.function.clauses and call.name not in UNTOLD]


def main(words):
    if words != ["--write"]:
        print("usage: tests/sources/surface.py --write", file=sys.stderr)
        return 2
    text = listed(TOP, calls_of(TOP))
    with open(os.path.join(TOP, LIST), "w", encoding="utf-8") as file:
        file.write(text)
    return 0


if __name__ == "__main__":
    sys.exit(main(sys.argv[1:]))
