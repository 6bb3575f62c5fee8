"""The crates as their sources have them: the public calls with their clauses, and the types and the traits that these speak of."""

import collections
import glob
import os
import re
import sys

sys.path.append(os.path.dirname(os.path.dirname(os.path.abspath(__file__))))

from common import TOP, read

# A `requires` or an `ensures`, its name or none, and what it says.
Clause = collections.namedtuple("Clause", "kind name text")

# A call: its name, as in `a of T`, the type or trait that it is of, or none, its lines up to the first clause, and its clauses.
Function = collections.namedtuple("Function", "name signature clauses")

# What has calls: the type or trait that they are of, or none, the text before the brace, and the text in the braces.
Part = collections.namedtuple("Part", "owner head body")

# A call of a crate, where it stands: its part, and the file.
Call = collections.namedtuple("Call", "name function part path")

# An impl of a trait for a type, both by their names.
Impl = collections.namedtuple("Impl", "trait type part path")

# A type or a trait: whether it is public, its kind, what stands behind its name without comments and without the names of an enum's variants,
# its impl of `Model`, or none, and the file.
Type = collections.namedtuple("Type", "is_public kind text model path")

CLAUSE = re.compile(r"^\s+(requires|ensures) (?:(\w+) )?\{")
TYPE = re.compile(r"^(pub )?(?:pub\([^)]*\) )?(struct|enum|trait|type) (\w+)", re.M)
IMPL = re.compile(r"^impl\b([^{]*) for ([^{]*)\{$(.*?)^\}", re.M | re.S)
GHOST = re.compile(r"^    (?:pub(?:\([^)]*\))? )?ghost (\w+)(?::| =) \{", re.M)


def files(top, pattern):
    return sorted(glob.glob(os.path.join(top, pattern), recursive=True))


def exported(crate):
    """The names that a library gives out, itself or by its public modules, or none where the crate is a program, all of whose public items count."""
    root = os.path.join(crate, "src", "lib.rt")
    if not os.path.exists(root):
        return None
    modules = [os.path.join(crate, "src", f"{name}.rt") for name in re.findall(r"^pub mod (\w+);", read(root), re.M)]
    uses = [it for path in (root, *modules) for it in re.findall(r"^pub use (?:\w+::)+(?:\{([^}]*)\}|(\w+));", read(path), re.M)]
    return set(re.findall(r"\w+", " ".join(many + one + " " for many, one in uses)))


def signature_and_contract(lines):
    """The lines from a function's first one on that stand before its body, or before the end of its declaration."""
    indent = re.match(r" *", lines[0])[0]
    said = lines[:1]
    for line in lines[1:]:
        is_body = said[-1].endswith(("{", ";")) and not any(map(CLAUSE.match, said))
        if is_body or line and not line.startswith((indent + " ", indent + ")", indent + "where")):
            break
        said.append(line)
    return said


def braced(text, start):
    """What stands in the braces that begin at a place of a text."""
    depth = 0
    for place in range(start, len(text)):
        depth += {"{": 1, "}": -1}.get(text[place], 0)
        if not depth:
            return text[start + 1 : place]
    return text[start + 1 :]


def without_comments(text):
    return re.sub(r"//.*", "", text)


def clauses_of(lines):
    """The clauses that begin on some of the lines."""
    found = []
    for number, line in enumerate(lines):
        match = CLAUSE.match(line)
        if match:
            text = without_comments("\n".join(lines[number:]))
            found.append(Clause(match[1], match[2], braced(text, text.index("{"))))
    return found


def functions(text, start):
    """The functions of a text whose line begins so."""
    lines = text.splitlines()
    for number, line in enumerate(lines):
        name = re.match(start + r'(?:extern "C" )?fn (\w+)', line)
        if name:
            said = signature_and_contract(lines[number:])
            first = next((at for at, line in enumerate(said) if CLAUSE.match(line)), len(said))
            yield Function(name[1], " ".join(said[:first]), clauses_of(said))


def parts(text):
    """The parts of a file that have public calls, and how a call's line begins there."""
    for head, body in re.findall(r"^impl\b([^{]*)\{$(.*?)^\}", text, re.M | re.S):
        if " for " not in head:
            yield Part(re.sub(r"^<(?:[^<>]|<[^<>]*>)*>|<.*", "", head.strip()).strip(), head, body), "    pub "
    for name, head, body in re.findall(r"^pub trait (\w+)([^{]*)\{$(.*?)^\}", text, re.M | re.S):
        yield Part(name, head, body), "    "
    yield Part("", "", text), "pub "


def calls(crate):
    """The public calls of a crate: those of its types and traits, its functions, and what it exports to C."""
    names = exported(crate)
    found = []
    for path in files(crate, "src/**/*.rt"):
        for part, start in parts(read(path)):
            for call in functions(part.body, start):
                if names is None or (part.owner or call.name) in names or 'extern "C"' in call.signature:
                    name = f"{call.name} of {part.owner}" if part.owner else call.name
                    found.append(Call(name, call, part, path))
    return found


def ghosts(text):
    """The ghost members or fields of a body, by their names: the type of each, and what it is set to, as far as these are there."""
    found = {}
    for match in GHOST.finditer(text):
        said = braced(text, match.end() - 1)
        behind = text[match.end() + len(said) + 1 :]
        found[match[1]] = [said, braced(behind, behind.index("{"))] if behind.startswith(" = {") else [said]
    return found


def last_name(text):
    """The name of a type or a trait, without its path and its parameters."""
    return re.findall(r"\w+", text.partition("<")[0])[-1]


def impls(crate):
    """The impls of traits for types with a name."""
    found = []
    for path in files(crate, "src/**/*.rt"):
        for head, type_, body in IMPL.findall(read(path)):
            if re.match(r"[\w&]", type_):
                trait = re.sub(r"^<.*?>(?= )", "", head)
                found.append(Impl(last_name(trait), last_name(type_), Part(last_name(type_), f"{head} for {type_}", body), path))
    return found


def types(crate):
    """The types and the traits of a crate, by their names."""
    models = {it.type: it for it in impls(crate) if it.trait == "Model"}
    found = {}
    for path in files(crate, "src/**/*.rt"):
        text = without_comments(read(path))
        for match in TYPE.finditer(text):
            head = re.match(r"[^;{]*", text[match.end() :])[0]
            brace = match.end() + len(head)
            body = braced(text, brace) if text[brace] == "{" else ""
            said = head + (re.sub(r"^    \w+", "", body, flags=re.M) if match[2] == "enum" else body)
            found[match[3]] = Type(bool(match[1]), match[2], said, models.get(match[3]), path)
    return found
