#!/usr/bin/env python3
"""What the repository weighs, beside what budget.txt lets it weigh.

usage: tests/sources/budget.py [--write [--why REASON [NAME..]]]

It prints each number that is over the one in the file, or so far below it that the file has to follow. --write lowers numbers in the file to what is
counted. It raises those of the lines NAME.., or of all lines, only for a reason, which it writes below the line, and none that is over its aim. What nobody
can count here (BY_HAND) it leaves. The exit status is 1 if something is still wrong. It needs Python 3.9 or later.
"""

import argparse
import glob
import os
import re
import sys

sys.path.append(os.path.dirname(os.path.dirname(os.path.abspath(__file__))))

from common import TOP, read

LIST = "tests/sources/budget.txt"
HEAD = """# What the repository may weigh: lines of code (of crates that are no tests), of tests, of specs, and of proofs with their answers; impls of Model; and
# goals that are answered by name. A number rises only by an edit of this file that says why, and follows when what it counts has fallen by a fiftieth:
# `tests/sources/budget.py --write`. The functions from a call of C to its first exchange are counted by hand, the gate's minutes by tools/gate.
"""
LINE = re.compile(r"([\w ]+): (.*)")
NUMBER = re.compile(r"([a-z ]+) (\d+)(?: \(aim (\d+)\))?")
MODEL = re.compile(r"^impl\b[^{;]*?\bModel for\b", re.M)
GOAL = re.compile(r"^pub [^:]+ :\s+goal\.", re.M)
KINDS = "code", "tests", "specs", "proofs", "models", "goals"
PAGES = "*.md", "docs/**/*.md", "bindings/**/*.md", "bench/*.md"
BUILT = re.compile(r"/(?:out|target|build|\.[^/]+)/")
BY_HAND = "functions to the first exchange"


def texts(top, *patterns):
    """The texts of the files below a folder whose paths are so, without what was built there."""
    paths = {it for pattern in patterns for it in glob.glob(os.path.join(top, pattern), recursive=True)}
    return [read(it) for it in sorted(paths) if os.path.isfile(it) and not BUILT.search(it[len(top) :])]


def lines(of):
    return sum(len(it.splitlines()) for it in of)


def weight(top, crate):
    """The numbers of a crate."""
    at = os.path.join(top, "crates", crate)
    code, specs, proofs = (texts(at, pattern) for pattern in ("src/**/*.rt", "specs/**/*.antt", "proofs/**/*.antt"))
    is_test = crate.endswith(("_tests", "_testing"))
    models = sum(len(MODEL.findall(it)) for it in code)
    goals = sum(len(GOAL.findall(it)) for it in texts(at, "proofs/**/Answers.antt"))
    return dict(zip(KINDS, (lines(code) * (not is_test), lines(code) * is_test, lines(specs), lines(proofs), models, goals)))


def gate_minutes(top):
    """The minutes of a processor that the gate took on four cores, or 0 where tools/gate has not written them."""
    return int((re.search(r"^\| 4 \| [\d:]+ \| (\d+) \|", read(top, "docs", "PROOFS.md"), re.M) or [0, 0])[1])


def counted(top):
    """What is counted: the numbers of each line, by its name."""
    found = {crate: weight(top, crate) for crate in re.findall(r"^\w+", read(top, "crates.txt"), re.M)}
    total = {kind: sum(it[kind] for it in found.values()) for kind in KINDS}
    return {
        **found,
        "all crates": total,
        "specs and proofs of all crates": {"lines": total["specs"] + total["proofs"]},
        "tests of bindings": {"lines": lines(texts(top, "bindings/*/tests/*.*", "bindings/*/test_*.py"))},
        "pages": {"words": sum(len(it.split()) for it in texts(top, *PAGES))},
        "gate": {"minutes of a processor": gate_minutes(top)},
    }


def parsed(text):
    """The lines of the file by their names: the numbers of each with their aims, and the remarks below it."""
    found, remarks = {}, []
    for line in text.removeprefix(HEAD).splitlines():
        if line.startswith("# why: "):
            remarks.append(line)
            continue
        match = LINE.fullmatch(line)
        numbers = [NUMBER.fullmatch(it) for it in match[2].split(", ")] if match else [None]
        assert all(numbers), f"{LIST} cannot be read here: {line}"
        remarks = []
        found[match[1]] = {it[1]: (int(it[2]), it[3] and int(it[3])) for it in numbers}, remarks
    return found


def wrong(text, found):
    """What is wrong with the file beside what was counted."""
    told, said = parsed(text), []
    for name in sorted({*told, *found, BY_HAND}):
        numbers, (limits, _) = found.get(name, {}), told.get(name, ({}, []))
        if name != BY_HAND and not any(numbers.values()):
            said.append(f"{name}: nothing is counted")
            continue
        if not limits:
            said.append(f"{name}: it has no line")
        for kind, number in numbers.items():
            limit, _ = limits.get(kind, (0, None))
            if number > limit:
                said.append(f"{name}: {kind} {number} is over {limit} by {number - limit}")
            elif number < limit - limit // 50:
                said.append(f"{name}: {kind} {limit} has to follow: lower it to {number}")
    return said


def unexplained(before, after):
    """The lines in which a number rose from one state of the file to another, with no new reason below it."""
    told = parsed(before)
    found = []
    for name, (limits, remarks) in parsed(after).items():
        of, old = told.get(name, ({}, []))
        rose = any(number > of.get(kind, (0, None))[0] for kind, (number, _) in limits.items())
        found += [name] * (rose and not set(remarks) - set(old))
    return found


def line(name, numbers, remarks):
    of = (f"{kind} {number}{f' (aim {aim})' if aim else ''}" for kind, (number, aim) in numbers.items() if number or aim)
    return "".join(f"{it}\n" for it in (f"{name}: {', '.join(of)}", *remarks))


def renewed(text, found, why="", names=()):
    """The file with numbers lowered to what was counted, and for a reason raised to it, of lines with these names or of all."""
    told, made = parsed(text), [HEAD]
    for name, numbers in {**found, BY_HAND: {}}.items():
        limits, remarks = told.get(name, ({}, []))
        limits, raised = dict(limits), []
        for kind, number in numbers.items():
            limit, aim = limits.get(kind, (0, None))
            if number > limit and why and (not names or name in names) and not (aim and number > aim):
                raised.append(f"{kind} {limit} to {number}")
            elif number > limit:
                number = limit
            limits[kind] = number, aim
        if any(number for number, _ in limits.values()):
            made.append(line(name, limits, remarks + [f"# why: {', '.join(raised)}: {why}"] * bool(raised)))
    return "".join(made)


def main(words):
    parser = argparse.ArgumentParser(description=__doc__, formatter_class=argparse.RawDescriptionHelpFormatter)
    parser.add_argument("--write", action="store_true")
    parser.add_argument("--why", default="")
    parser.add_argument("names", nargs="*")
    asked = parser.parse_args(words)
    text, found = read(LIST), counted(TOP)
    if asked.write:
        text = renewed(text, found, asked.why.strip(), asked.names)
        with open(os.path.join(TOP, LIST), "w", encoding="utf-8") as file:
            file.write(text)
    said = wrong(text, found)
    print("".join(f"{it}\n" for it in said), end="")
    return int(bool(said))


if __name__ == "__main__":
    sys.exit(main(sys.argv[1:]))
