"""The definitions of the crates' specs: on which lines each stands, and what it names.

A word names what an import, or a definition beside it, brings under it, also if the term binds it: so what rests on what is rather told too much
than too little.
"""

import collections
import os
import re

from sources import files, read

# A definition: the numbers of its lines of code and of its lines of comment, the heads of the modules around it and the comments above it and
# above them among these; what it names; and whether it is opaque to callers.
Definition = collections.namedtuple("Definition", "code comment names is_opaque")

# How the comment above a definition begins that callers only hand on from one call to another.
OPAQUE = "-- opaque: "

# What a word may name: a definition of specs, or a type of Rust code.
Spec = collections.namedtuple("Spec", "crate module name")
Rust = collections.namedtuple("Rust", "crate name")

IMPORT = re.compile(r"^ *(?:ghost )?(?:pub )?use .*$", re.M)
USE = re.compile(r" *(?:ghost )?(?:pub )?use ([^{;\s]*?)(?:\.\{([^}]*)\}| as (\S+?))?;?")
ITEM = re.compile(r" *(?:(?:abbrev|unfoldable|pub) )*(?:(record|data) )?(\S+)")
CONSTRUCTOR = re.compile(r" +(?:pub )?(\S+) : ")
WORD = re.compile(r'"(?:[^"\\]|\\.)*"|[^\s(){}\[\];,"]+')


def target(path, name, crates):
    """What a name is that an import brings from a path, or none if it is of a library or of proofs."""
    parts = path.split(".")
    if parts[0] != "Rattle" or parts[1] not in crates or parts[2] != "specs":
        return None
    crate, rest = parts[1], parts[3:]
    if rest[0] in ("declared", "contracts"):
        return Rust(crate, rest[-2] if rest[-1] in ("TheVariants", "TheConstants") else rest[-1])
    return Spec(crate, ".".join(rest), name)


def imports(text):
    """The imports of a text, each as its path, its items with their other names, and the name that it gives the module if it has no items."""
    for line in IMPORT.findall(text):
        path, items, alias = USE.fullmatch(line).groups()
        named = [it.strip().partition(" as ") for it in (items or "").split(",") if it.strip()]
        yield path, [(name, other or name) for name, _, other in named], alias or path.rpartition(".")[2]


def scope_of(text, crates):
    """What the imports of a text bring: what each name is, and the path of each module."""
    scope = {}
    for path, items, alias in imports(text):
        if not items:
            scope[alias] = path
        for name, other in items:
            scope.update((piece, target(path, name, crates)) for piece in other.split("◌") if piece)
    return scope


def names_in(text, scope, crates):
    """What the words of a text name."""
    found = set()
    for word in WORD.findall(text):
        word = word.strip(".")
        head, _, rest = word.partition(".")
        of = scope.get(word, scope.get(head))
        found.add(target(of, rest.partition(".")[0], crates) if isinstance(of, str) else of)
    return found - {None}


def indent_of(line):
    return len(line) - len(line.lstrip(" "))


def is_comment(line):
    return line.lstrip().startswith("--")


class Module:
    """A module of specs, whose definitions are in `definitions` by their names, and whose imports in `uses`, each a path and what it brings."""

    def __init__(self, path, crate, name, crates):
        text = read(path)
        self.lines = text.splitlines()
        self.uses = [(path, [target(path, it, crates) for it, _ in items]) for path, items, _ in imports(text)]
        scope = scope_of(text, crates)
        found = list(self.items())
        for of, kind, start, end, _ in found:
            constructors = [it[1] for it in map(CONSTRUCTOR.match, self.lines[start + 1 : end]) if it and kind == "data"]
            scope.update((it, Spec(crate, name, of)) for it in [of, *constructors])
        self.definitions = {of: self.definition(of, *where, scope, crates) for of, _, *where in found}

    def items(self):
        """The items: the name of each, its kind, its first line and the one behind its last, and the first lines of the modules around it."""
        around, number = [], 0
        while number < len(self.lines):
            line, start = self.lines[number], number
            number += 1
            if not line.strip() or is_comment(line) or IMPORT.match(line) or line.startswith("pub mod "):
                continue
            around = [it for it in around if indent_of(self.lines[it]) < indent_of(line)]
            if line.lstrip().startswith("module "):
                around.append(start)
                continue
            kind, name = ITEM.match(line).groups()
            number = self.item_end(start, name)
            yield name, kind, start, number, tuple(around)

    def item_end(self, start, name):
        """The line behind the last one of the item that begins on a line."""
        end, indent = start + 1, indent_of(self.lines[start])
        for number, line in enumerate(self.lines[end:], end):
            if not line.strip():
                continue
            is_equation = line.split()[0] == name or line.strip() in (")", "}", "]")
            if indent_of(line) < indent or indent_of(line) == indent and not is_equation:
                break
            end = number + 1
        return end

    def definition(self, name, start, end, around, scope, crates):
        above = [it for line in [start, *around] for it in self.comment_above(line)]
        shown = {it for it in [*range(start, end), *around] if self.lines[it].strip()}
        comment = {it for it in shown if is_comment(self.lines[it])}
        names = names_in("\n".join(self.lines[it] for it in shown - comment), scope, crates)
        is_opaque = any(self.lines[it].lstrip().startswith(OPAQUE) for it in self.comment_above(start))
        return Definition(frozenset(shown - comment), frozenset(comment.union(above)), names - {scope[name]}, is_opaque)

    def comment_above(self, line):
        """The numbers of the lines of the comment right above a line."""
        above = line
        while above and is_comment(self.lines[above - 1]) and indent_of(self.lines[above - 1]) == indent_of(self.lines[line]):
            above -= 1
        return range(above, line)


def modules(crate, crates):
    """The modules of a crate's specs that define something, by their names, as in `inside.Points`."""
    specs = os.path.join(crate, "specs")
    paths = {os.path.relpath(path, specs)[: -len(".antt")].replace(os.sep, "."): path for path in files(specs, "**/*.antt")}
    found = {name: Module(path, os.path.basename(crate), name, crates) for name, path in paths.items()}
    return {name: it for name, it in found.items() if it.definitions}
