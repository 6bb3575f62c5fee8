"""Holds the places of the crates that answer want of memory to a list. No contract sees what memory there is, so a body may refuse
whatever it likes for want of memory: whoever adds such an answer says in the list why it comes only where a request was refused.

A place is an `AllocError`, `AllocFailed`, `OutOfMemory` or `NO_MEMORY` that stands as a value in a crate that is not one of tests: an answer that is
passed on by `?` is none. It is told by its file, its function and all that it stands in, so that a place whose condition changes is a new one.
A body that asks for more memory than there can be is not seen here, but by the sweeps of tests/program.
refusals.txt has three lines for each: the file and the function, the place, and why.
"""

import collections
import glob
import os
import re

from common import CRATES, TOP, read

# What stands for want of memory; `started` is what `start_all` answers where the start of a thread was refused.
WANT = re.compile(r"\b(AllocError|AllocFailed|OutOfMemory|NO_MEMORY|Err\(started\))(?!\w)")

# Comments, texts and characters.
NO_CODE = re.compile(r"""//[^\n]*|"(?:\\.|[^"\\])*"|'(?:\\.[^']*|[^'\\])'""", re.DOTALL)

# What begins a part that makes no value, up to its `;` or its closing brace.
PARTS = re.compile(r"\bghost\b|\b(?:requires|ensures|invariant)\b[^{;=]*(?=\{)|\buse\b|\benum\b")

# A place: its file, its function, and what it stands in, from the outermost.
Place = collections.namedtuple("Place", "file function code")


def end_of_part(code, begin):
    """The end of the part that begins there: behind its `;`, or the `,` of a ghost field, or behind the brace that closes it where neither is to
    follow, or before the one that closes what it stands in."""
    depth = 0
    needs_end = code.startswith(("ghost", "use"), begin)
    for at in range(begin, len(code)):
        depth += {"{": 1, "}": -1}.get(code[at], 0)
        if depth < 0:
            return at
        if depth == 0 and (code[at] == ";" or code[at] == ("," if needs_end else "}")):
            return at + 1
    return len(code)


def code_of(text):
    """The text without comments, texts, contracts, imports and declarations of enums."""
    code = NO_CODE.sub(lambda found: '""' if found[0][0] == '"' else " ", text)
    begin = PARTS.search(code)
    while begin:
        code = f"{code[:begin.start()]} {code[end_of_part(code, begin.start()):]}"
        begin = PARTS.search(code, begin.start())
    return code


def is_value(code, found):
    """Whether what was found is a value, and no type, pattern, name of a constant or side of a comparison."""
    before, after = code[: found.start()], code[found.end() :]
    is_type = re.match(r"\s*,?\s*>|\s*<", after) or (re.search(r"[^:]:\s*$", before) and after.startswith(")"))
    is_pattern = re.match(r"[^;,{}]*?=>|[\s)]*=[^=]", after)
    return not (is_type or is_pattern or re.search(r"[!=]=\s*(\w+::)*$|\bconst\s*$", before))


DEPTH = {"(": 1, "[": 1, ")": -1, "]": -1}


def begin_of(code, begin, at):
    """Where the statement, or the arm of a match, begins that stands at `at`: behind `begin`, or behind the last comma since."""
    depth = 0
    for place in range(begin, at):
        depth = max(depth + DEPTH.get(code[place], 0), 0)
        if code[place] == "," and depth == 0:
            begin = place + 1
    return begin


def end_of(code, begin, at):
    """Where the statement or the arm that begins at `begin` ends, behind `at`."""
    depth = 0
    for place in range(begin, len(code)):
        depth += DEPTH.get(code[place], 0)
        if place >= at and (code[place] in "{}" or depth <= 0 and code[place] in ",;"):
            return place
    return len(code)


def blocks_at(code, at):
    """Where the last statement before `at` begins, and the beginning and the brace of each block that is open there, innermost last."""
    begin, depth, blocks = 0, 0, []
    for place in range(at):
        depth += DEPTH.get(code[place], 0)
        if code[place] == "{":
            blocks.append((begin, place, depth))
            depth = 0
        elif code[place] == "}":
            depth = blocks.pop()[2]
        if code[place] in "{}" or code[place] == ";" and depth == 0:
            begin = place + 1
    return begin, blocks


def places_in(file, text):
    """The places of a file."""
    code = code_of(text)
    for found in filter(lambda it: is_value(code, it), WANT.finditer(code)):
        begin, blocks = blocks_at(code, found.start())
        begin = begin_of(code, begin, found.start())
        inside = [code[begin : end_of(code, begin, found.end())]]
        function = "-"
        for begin, brace, _ in reversed(blocks):
            named = re.search(r"\bfn (\w+)", code[begin:brace])
            if named:
                function = named[1]
                break
            inside.insert(0, code[begin_of(code, begin, brace) : brace])
        yield Place(file, function, " { ".join(" ".join(it.split()) for it in inside))


def sources():
    """The text of each source file of a crate that is not one of tests, by its path below the repository."""
    paths = sorted(glob.glob(os.path.join(CRATES, "*", "src", "**", "*.rt"), recursive=True))
    return {os.path.relpath(path, TOP): read(path) for path in paths if "_tests/src/" not in path}


def listed():
    """The places of the list, each of which has a reason."""
    lines = [line.strip() for line in read(os.path.dirname(__file__), "refusals.txt").splitlines() if line.strip() and not line.startswith("#")]
    assert len(lines) % 3 == 0, "refusals.txt has no three lines for each place"
    return [Place(*lines[at].split(), lines[at + 1]) for at in range(0, len(lines), 3)]


def compare(places, allowed):
    """What differs: a line for each place that the list lacks, and for each that is gone."""
    there, wanted = collections.Counter(places), collections.Counter(allowed)
    new = [f"answers want of memory, and is not in the list: {' '.join(it)}" for it in (there - wanted).elements()]
    gone = [f"stands in the list, and is gone: {' '.join(it)}" for it in (wanted - there).elements()]
    return new + gone


# Lines that are planted at the beginning of a function, and whether each is a place.
PLANTED = [
    ("if bits == 2 { return Err(AllocError); }", True),
    ("if bits == 2 { return Err((ended, BeginError::OutOfMemory)); }", True),
    ("let cause = Some(1).ok_or(AllocError)?;", True),
    ("let cause = check(bits).map_err(|_| ScriptError::OutOfMemory)?;", True),
    ("match bits { 2 => Err(RunError::OutOfMemory), _ => Ok(()) }?;", True),
    ("let fault = Fault { cause: AllocError };", True),
    ("if bits == 2 { return Err(started); }", True),
    ("return Err(std::alloc::AllocError.into());", True),
    ("return NO_MEMORY;", True),
    ("struct Held { ghost value: { u32 }, at: u32 } fn no() { return Err(AllocError); }", True),
    ("struct Held { at: u32, ghost value: { u32 } } fn no() { return Err(AllocError); }", True),
    ("// return Err(AllocError);", False),
    ('let text = "AllocError";', False),
    ("const NO_MEMORY: i64 = -5;", False),
    ("let done: Result<u32, AllocError> = work(bits);", False),
    ("if error == Stop::OutOfMemory { stop(); }", False),
    ("if let Err(Stop::OutOfMemory) = done { stop(); }", False),
    ("match done { Err(Stop::OutOfMemory) => stop(), Ok(_) => (), }", False),
]


# The file and the beginning of the function at which they are.
PATH, HEAD = "crates/aug_run/src/script.rt", "{\n    let bytes = match read_all"

TEXTS = sources()
PLACES = [place for path, text in TEXTS.items() for place in places_in(path, text)]


def test_the_list_has_each_place():
    assert compare(PLACES, listed()) == []
    assert len(TEXTS) >= 50 and len(PLACES) >= 20


def test_planted_places_are_told():
    others = [place for place in PLACES if place.file != PATH]
    for line, is_place in PLANTED:
        text = TEXTS[PATH].replace(HEAD, HEAD.replace("{\n", f"{{\n    {line}\n"), 1)
        assert line in text
        assert len(compare([*others, *places_in(PATH, text)], PLACES)) == is_place, line


def test_each_place_is_missed():
    for at, place in enumerate(PLACES):
        others = PLACES[:at] + PLACES[at + 1 :]
        assert len(compare(PLACES, others)) == len(compare(others, PLACES)) == 1, place
