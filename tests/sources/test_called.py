"""Each public call is made by somebody: a program, a test, an example, a binding, or another crate; and each lemma has a use."""

import os
import re

from common import TOP, InFolder
from sources import files, read
from surface import calls_of

# Whom nobody calls, each with its reason.
UNCALLED = {"aug_report": "its theorems are statements, which are proved as functions and have nothing to do"}

# A word of a proof, and a line that states a definition.
WORD = re.compile(r"[\w'-]+")
STATED = re.compile(r"^( *)(?:pub |abbrev )*([\w'-]+) : ", re.M)


def uncalled(top):
    """The public calls, but for those of traits, whose names stand before a bracket in no file of another crate and of no binding."""
    found = calls_of(top)
    texts = {crate: "".join(map(read, files(os.path.join(crate, "src"), "**/*.rt"))) for crate in found}
    others = "".join(read(path) for kind in ("*.c", "*.h", "*.rs", "*.py") for path in files(os.path.join(top, "bindings"), f"**/{kind}"))
    left = []
    for crate, calls in found.items():
        if os.path.basename(crate) in UNCALLED:
            continue
        elsewhere = others + "".join(text for other, text in texts.items() if other != crate)
        for call in calls:
            is_of_trait = call.part.owner and call.part.owner not in call.part.head or " for " in call.part.head
            if not is_of_trait and not re.search(rf"\b{call.function.name}(?:::<[^(]*>)?\s*\(", elsewhere):
                left.append(f"{os.path.basename(crate)}: {call.name}")
    return left


def unused(top):
    """The definitions of pages of lemmas that no line names but those where they are stated and defined, as `page: name`."""
    cited, stated = set(), []
    for path in (it for part in ("src/**/*.rt", "specs/**/*.antt", "proofs/**/*.antt") for it in files(top, f"crates/*/{part}")):
        text = re.sub("--.*", "", read(path))
        here = {name: indent for indent, name in STATED.findall(text)} if re.search(r"/proofs/\w+\.antt$", path) else {}
        stated += [(os.path.basename(path), name) for name in here]
        for line in text.splitlines():
            first, *others = WORD.findall(re.sub(r"^(\s*)(?:pub |abbrev )+", r"\1", line)) or [""]
            is_own = here.get(first) == re.match(r"\s*", line)[0] and re.search(r" [:=]( |$)", line)
            cited.update(others if is_own else [first, *others])
    return [f"{page}: {name}" for page, name in stated if name not in cited]


def test_each_public_call_is_made():
    assert uncalled(TOP) == []


def test_each_lemma_has_a_use():
    assert unused(TOP) == []


SHELVES = """
-- Of twice: a shelf has room, and room again.
room : Room
room = once

once : Room
once = refl

pub twice : (n : ℕ) → Room
twice zero = room
twice (suc n) = once
"""


class TestSample(InFolder):
    """Calls that somebody makes, and one that nobody does; a lemma that is cited, and one that is not."""

    TEXTS = {
        "crates.txt": "one:\ntwo: one\n",
        "crates/one/src/lib.rt": "mod shelf;\npub use shelf::Shelf;\n",
        "crates/one/src/shelf.rt": """
impl Shelf {
    pub fn put(&mut self)
        ensures { yes }
    {
    }

    pub fn take(&mut self)
        ensures { yes }
    {
    }

    pub fn turn(&mut self)
        ensures { yes }
    {
        self.turn()
    }
}
""",
        "crates/two/src/lib.rt": "fn fill(shelf: &mut Shelf) {\n    shelf.put();\n}\n",
        "bindings/c/one.c": "void use(void) { take(&shelf); }\n",
    }

    def test_a_call_that_nobody_makes(self):
        for name, text in self.TEXTS.items():
            self.write(name, text)
        assert uncalled(self.folder) == ["one: turn of Shelf"]

    def test_a_lemma_without_a_use(self):
        self.write("crates/one/proofs/Shelves.antt", SHELVES)
        self.write("crates/one/proofs/put/Answers.antt", "use Rattle.one.proofs.Shelves.{room}\n\nputs = room\n")
        assert unused(self.folder) == ["Shelves.antt: twice"]
