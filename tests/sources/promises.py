#!/usr/bin/env python3
"""Works out which definitions the promises of the crates rest on, from the clauses of their public calls (chain.py says how).

usage: tests/sources/promises.py --list | --write

--list prints the definitions behind each public call; --write writes how many there are to believe, and the order of reading, into definitions.txt
beside this file, which test_promises.py compares with that. It needs Python 3.9 or later.
"""

import collections
import os
import re
import sys
import textwrap

from chain import Crates
from sources import TOP, read
from specs import Rust, Spec

# Whose definitions the list counts: what it calls them, the crate, or none for all crates, and its calls, or none for all of them. Of those
# that are marked it has the order of reading.
Read = collections.namedtuple("Read", "title crate calls is_listed")
FIRST = "insert of Pass", "snapshot of Pass", "end of Round"
READS = (
    *(Read(title, "aug_trie", [call], False) for title, call in zip(("`Pass::insert`", "`Pass::snapshot`", "`Round::end`"), FIRST)),
    Read("these three of `aug_trie`", "aug_trie", FIRST, True),
    Read("`run` of the program", "aug_run", ["run"], True),
    Read("these four together", None, [*FIRST, "run"], False),
    Read("`Handle::insert` of a live trie", "aug_live", ["insert of Handle"], False),
    Read("`Live::close`", "aug_live", ["close of Live"], False),
    Read("`aug_insert` for C", "aug_c", ["aug_try_insert"], False),
    Read("all public calls", None, None, True),
)

# The modules outside of `inside` that may import it, each as (crate, module) with its reason: the view of a `Model` stands there.
EXCEPTIONS = {}

# The definitions outside of `inside` that may be behind no clause, each as (crate, name) with its reason.
LOOSE = {}

INSIDE = re.compile(r"Rattle\.\w+\.specs\.inside(\.|$)")
LIST = "tests/sources/definitions.txt"
HEAD = """# Definitions behind the public calls

Written by `tests/sources/promises.py --write`; the gate compares it with the sources. `docs/definitions.md` says how to read them. Behind a module
stand the definitions that are meant, or those that are not, if these are not all.
"""


def by_module(names):
    """The definitions among some names, by crate and module."""
    found = collections.defaultdict(set)
    for name in names:
        if isinstance(name, Spec):
            found[name.crate, name.module].add(name.name)
    return found


def ordered(items, below):
    """Items, each behind those of them that it rests on."""
    found = []

    def add(item):
        if item not in found:
            for it in sorted((below(item) & items) - {item}):
                add(it)
            found.append(item)

    for item in sorted(items):
        add(item)
    return found


class Promises:
    """What the promises of the crates below a folder rest on."""

    def __init__(self, top, reads):
        self.reads, self.crates = reads, Crates(top)
        self.order = re.findall(r"^\w+", read(os.path.join(top, "crates.txt")), re.M)
        self.all = [(crate, it) for crate, promises in self.crates.promises.items() for it in promises]
        self.chain = self.crates.chain(name for _, it in self.all for name in it.names)
        self.in_chain = by_module(self.chain)

    # What is written

    def below(self, key):
        """The modules that a module names."""
        return set(by_module(name for it in self.crates.modules[key].definitions.values() for name in it.names))

    def module_text(self, key, inside):
        """A module with the part of it that is meant."""
        every = set(self.crates.modules[key].definitions)
        alone, without = (", ".join(f"`{name}`" for name in sorted(names)) for names in (inside, every - inside))
        return f"`{key[1]}`" + ("" if inside == every else f" ({alone} alone)" if 2 * len(inside) < len(every) else f" (without {without})")

    def reading(self, names):
        """The modules behind some names in an order of reading."""
        return sorted(ordered(set(by_module(names)), self.below), key=lambda it: self.order.index(it[0]))

    def order_text(self, names):
        """The modules behind some names in an order of reading, by crates."""
        found, modules = by_module(names), self.reading(names)
        said = {crate: ", ".join(self.module_text(key, found[key]) for key in modules if key[0] == crate) for crate in self.order}
        return "".join(filled(f"- `{crate}`: {of}", "  ") for crate, of in said.items() if of)

    def chain_of(self, read):
        """What the calls rest on that are to be read for."""
        calls = [it for crate, it in self.all if read.crate in (None, crate) and it.name in (read.calls or [it.name])]
        return self.crates.chain(name for it in calls for name in it.names)

    def written(self):
        """How many definitions there are to believe, and in which order."""
        rows = "".join(f"| {read.title} | {' | '.join(map(str, self.counted(self.chain_of(read))))} |\n" for read in self.reads)
        lists = "".join(f"\nIn order, for {read.title}:\n\n{self.order_text(self.chain_of(read))}" for read in self.reads if read.is_listed)
        opaque = self.crates.opaque({name for _, it in self.all for name in it.names})
        lists += f"\nOpaque, and not counted:\n\n{self.order_text(opaque)}" * bool(opaque)
        return f"{HEAD}\n| To be believed for | Definitions | Lines | Lines of comments |\n|---|---|---|---|\n{rows}{lists}"

    # What is wrong

    def wrong_reads(self):
        """Which calls that are to be counted are not there."""
        there = {(crate, it.name) for crate, it in self.all}
        wanted = {(it.crate, call) for it in self.reads for call in it.calls or () if it.crate}
        return [f"there is no {call} in {crate}" for crate, call in sorted(wanted - there)]

    def wrong_heads(self):
        """Which modules of the chain do not say what they are."""
        silent = sorted(key for key in self.in_chain if not self.crates.modules[key].lines[0].startswith("-- "))
        return [f"{name} of {crate} does not say at its head what it is" for crate, name in silent]

    def wrong_imports(self, exceptions):
        """Which modules import what is inside, and should not."""
        is_wrong = lambda path, names: INSIDE.match(path) and not all(map(self.crates.is_opaque, names))
        found = {key for key, it in self.crates.modules.items() if not is_inside(key[1]) and any(is_wrong(*use) for use in it.uses)}
        wrong = [f"{name} of {crate} imports a module from inside" for crate, name in sorted(found - set(exceptions))]
        unneeded = sorted(set(exceptions) - found)
        return wrong + [f"{name} of {crate} is excepted, and imports no module from inside" for crate, name in unneeded]

    def wrong_clauses(self):
        """Which definitions from inside a clause rests on."""
        wrong = []
        for crate, name in sorted(key for key in self.in_chain if is_inside(key[1])):
            of = {it for it in self.chain if isinstance(it, Spec) and (it.crate, it.module) == (crate, name)}
            call = next(f"{it.name} ({owner})" for owner, it in self.all if of & self.crates.chain(it.names))
            wrong.append(f"{name} of {crate} is inside, and {call} rests on its {', '.join(sorted(it.name for it in of))}")
        return wrong

    def wrong_places(self, loose):
        """Which definitions lie outside of what is inside, and are behind no clause."""
        outside = [(key, it) for key, it in self.crates.modules.items() if self.crates.promises[key[0]] and not is_inside(key[1])]
        found = {Spec(*key, name) for key, it in outside for name in it.definitions} - self.chain
        found = {(it.crate, it.name): it.module for it in found if not self.crates.is_opaque(it)}
        return [f"{found[crate, name]}.{name} of {crate} is behind no clause, and not inside" for crate, name in sorted(set(found) - set(loose))]

    def wrong_opaque(self):
        """Which opaque definitions no call gives."""
        given = self.crates.opaque({name for _, it in self.all for name in it.given})
        marked = {Spec(*key, name) for key, it in self.crates.modules.items() for name in it.definitions}
        never = sorted(f"{it.name} ({it.module} of {it.crate})" for it in marked - given if self.crates.is_opaque(it))
        return [f"{it} is opaque, and no call gives it" for it in never]

    def wrong_names(self):
        """Which names of modules or definitions stand in two crates. A module of laws names each law as the trait does whose impl it is for."""
        where = collections.defaultdict(set)
        for (crate, module), it in self.crates.modules.items():
            last = module.rpartition(".")[2]
            where["module", last].add(crate)
            for name in it.definitions if not last.endswith("Laws") else ():
                where["definition", name].add(crate)
        return [f"{' and '.join(sorted(crates))} have a {kind} {name} each" for (kind, name), crates in sorted(where.items()) if len(crates) > 1]

    def wrong(self, text, exceptions=EXCEPTIONS, loose=LOOSE):
        """What is wrong with the crates, and with the list."""
        wrong = [f"{LIST} is not as tests/sources/promises.py --write writes it"] * (text != self.written())
        wrong += self.wrong_reads() + self.wrong_heads() + self.wrong_imports(exceptions) + self.wrong_clauses()
        return wrong + self.wrong_places(loose) + self.wrong_opaque() + self.wrong_names()

    def counts(self):
        """How many public calls and impls, modules and definitions there are."""
        return len(self.all), len(self.crates.modules), sum(len(it.definitions) for it in self.crates.modules.values())

    # What is listed

    def counted(self, names):
        """How many definitions are among some names, on how many lines, and with how many lines of comments."""
        there = {key: it.definitions for key, it in self.crates.modules.items()}
        said = [(key, there[key][name]) for key, of in by_module(names).items() for name in of & set(there[key])]
        return len(said), *(len({(key, line) for key, it in said for line in lines(it)}) for lines in (lambda it: it.code, lambda it: it.comment))

    def list_names(self, names):
        """Prints some names by where they are from."""
        found = collections.defaultdict(list)
        for (crate, module), of in sorted(by_module(names).items()):
            found[crate] += [f"{module}.{name}" for name in sorted(of)]
        for name in sorted((it for it in names if isinstance(it, Rust)), key=str):
            found[f"types of {name.crate}"].append(name.name)
        for of, said in found.items():
            print(filled(f"    {of}: {', '.join(said)}", "      "), end="")

    def list_all(self):
        for crate, promises in self.crates.promises.items():
            for promise in promises:
                chain = self.crates.chain(promise.names)
                print(f"{crate}: {promise.name}{' (the program)' if promise.is_program else ''}")
                self.list_names(chain)


def is_inside(module):
    return module.partition(".")[0] == "inside"


def filled(text, indent):
    return textwrap.fill(text, 140, subsequent_indent=indent, break_on_hyphens=False, break_long_words=False) + "\n"


def main(words):
    if words not in (["--list"], ["--write"]):
        print("usage: tests/sources/promises.py --list | --write", file=sys.stderr)
        return 2
    promises = Promises(TOP, READS)
    if words == ["--list"]:
        promises.list_all()
        return 0
    with open(os.path.join(TOP, LIST), "w", encoding="utf-8") as file:
        file.write(promises.written())
    return 0


if __name__ == "__main__":
    sys.exit(main(sys.argv[1:]))
