"""What the promises of the crates rest on, as promises.py works it out, is held to definitions.txt, to docs/definitions.md, which names the modules to be
read first in the order of reading, and to the folders specs/inside/. A module behind a clause must say at its head what it is. What is in a folder
specs/inside/ must be behind no clause, and no module outside of it may import it, but for what is opaque. What is not in such a folder must be behind
a clause, or opaque, in a crate that promises anything. What is opaque must be given by a call. No name of a module or a definition may stand in two
crates.
"""

import os
import re

from common import TOP, InFolder, quietly, read
from promises import HEAD, LIST, READS, Promises, Read


def test_the_crates_and_the_list_agree():
    promises = Promises(TOP, READS)
    assert promises.wrong(read(LIST)) == []
    calls, modules, definitions = promises.counts()
    assert calls >= 200 and modules >= 80 and definitions >= 600


def test_the_page_names_what_is_to_be_read_first():
    promises, read_first = Promises(TOP, READS), next(it for it in READS if it.is_listed)
    items = re.findall(r"^- `(\w+)`: (.*(?:\n  .*)*)", read("docs", "definitions.md"), re.M)
    named = [(crate, module) for crate, text in items for module in re.findall(r"`(\w+)`", text)]
    assert named == promises.reading(promises.chain_of(read_first))
    assert len(named) >= 20


class TestSample(InFolder):
    """Mistakes in a crate and its list are told."""

    TEXTS = {
        "crates/one/src/lib.rt": "mod shelf;\npub use shelf::Shelf;\n",
        "crates/one/src/shelf.rt": """
ghost use Rattle.std.specs.Prelude.{◌≡◌, ◌<◌};
ghost use Rattle.one.specs.Books.{size_of};
ghost use Rattle.one.specs.Steps.{IsStep};

pub struct Shelf {
    books: Vec<u32>,
}

impl Model for Shelf {
    ghost use Rattle.one.specs.Books.{ShelfFacts};
    ghost use Rattle.one.specs.Kept.{facts_of};

    ghost Value = { ShelfFacts };

    ghost view = { λ shelf. facts_of shelf.books };
}

impl Shelf {
    pub fn size(&self) -> u32
        ensures { result ≡ size_of self.now }
    {
        self.step()
    }

    fn step(&self) -> u32
        ensures { IsStep result }
    {
        0
    }
}
""",
        "crates/one/specs/Lib.antt": "pub mod Books\npub mod Kept\npub mod Steps\npub mod inside\n",
        "crates/one/specs/Books.antt": """-- What a shelf has.
use Rattle.std.specs.Prelude.{ℕ, List, length}
use Rattle.one.specs.Steps.{IsStep}

-- a shelf as contracts see it
pub record ShelfFacts : Type 0 where
  pub books : List ℕ

-- how many books it has
abbrev pub size_of : ShelfFacts → ℕ
size_of shelf = length (kept (λ step. step) shelf.books)

-- those of some books that a function keeps
abbrev kept : (ℕ → ℕ) → List ℕ → List ℕ
kept f books = books

-- a step is one for all books
abbrev pub AreSteps : Type 0
AreSteps = (n : ℕ) → IsStep n
""",
        "crates/one/specs/Kept.antt": """-- How the books are kept.
use Rattle.std.specs.Prelude.{ℕ, List}
use Rattle.one.specs.Books.{ShelfFacts}

abbrev pub facts_of : List ℕ → ShelfFacts
facts_of books = record { books = books }
""",
        "crates/one/specs/Steps.antt": """-- Steps.
use Rattle.std.specs.Prelude.{ℕ, ◌<◌}

abbrev pub IsStep : ℕ → Type 0
IsStep n = n < 9
""",
        "crates/one/specs/inside.antt": "pub mod Deep\n",
        "crates/one/specs/inside/Deep.antt": """-- What lies deep.
use Rattle.std.specs.Prelude.{ℕ}

abbrev pub deep : ℕ
deep = 0
""",
        "crates.txt": "one:\ntwo:\n",
        LIST: f"""{HEAD}
| To be believed for | Definitions | Lines | Lines of comments |
|---|---|---|---|
| `Shelf::size` | 3 | 6 | 3 |

In order, for `Shelf::size`:

- `one`: `Books` (without `AreSteps`)
""",
    }

    # The definitions that are behind no clause, though they are not inside.
    LOOSE = {("one", name): "a test" for name in ("AreSteps", "IsStep", "facts_of")}
    READS = (Read("`Shelf::size`", "one", ["size of Shelf"], True),)

    def found(self, file=None, old="", new="", exceptions=(), loose=LOOSE, reads=READS):
        """What is found in the folder, in one file of which a text was put in the place of another, and what is wrong with it."""
        for name, text in self.TEXTS.items():
            if name == file:
                assert text.count(old) == 1
                text = text.replace(old, new)
            self.write(name, text)
        promises = Promises(self.folder, reads)
        return promises, promises.wrong(self.read(LIST), dict(exceptions), loose)

    def wrong(self, *changed, **given):
        return self.found(*changed, **given)[1]

    def listed(self, *changed):
        return quietly(self.found(*changed)[0].list_all)[1]

    BOOKS, SHELF = "crates/one/specs/Books.antt", "crates/one/src/shelf.rt"
    IMPORT = "use Rattle.one.specs.inside.Deep.{deep}\n"
    NOT_AS_WRITTEN = "tests/sources/definitions.txt is not as tests/sources/promises.py --write writes it"

    def test_folder_that_agrees(self):
        promises, wrong = self.found()
        assert wrong == []
        assert promises.counts() == (1, 4, 7)

    def test_list_that_is_not_as_it_is_written(self):
        for old, new in ("| 3 | 6 |", "| 3 | 5 |"), (" (without `AreSteps`)", ""), ("Written by", "Wrote"):
            promises, wrong = self.found(LIST, old, new)
            assert wrong == [self.NOT_AS_WRITTEN]
            assert promises.written() == self.TEXTS[LIST]

    def test_call_to_be_counted_that_is_not_there(self):
        assert "there is no take of Shelf in one" in self.wrong(reads=[Read("`Shelf::take`", "one", ["take of Shelf"], True)])

    def test_module_that_does_not_say_what_it_is(self):
        assert self.wrong(self.BOOKS, "-- What a shelf has.\n", "") == ["Books of one does not say at its head what it is"]

    def test_import_from_inside(self):
        planted = self.BOOKS, "-- a shelf", f"{self.IMPORT}\n-- a shelf"
        assert self.wrong(*planted) == ["Books of one imports a module from inside"]
        assert self.wrong(*planted, exceptions={("one", "Books"): "a view"}) == []
        assert self.wrong("crates/one/specs/inside/Deep.antt", "-- What", f"{self.IMPORT}-- What") == []

    def test_exception_that_is_not_needed(self):
        assert self.wrong(exceptions={("one", "Books"): "a view"}) == ["Books of one is excepted, and imports no module from inside"]

    DEEP = "inside.Deep of one is inside, and size of Shelf (one) rests on its deep"

    def test_clause_that_rests_on_what_is_inside(self):
        deep = "ghost use Rattle.one.specs.inside.Deep.{deep as "
        assert self.wrong(self.SHELF, "ghost use Rattle.one.specs.Steps.{", deep) == []
        assert self.DEEP in self.wrong(self.SHELF, "ghost use Rattle.one.specs.Books.{size_of", f"{deep}size_of")

    def test_definition_behind_a_clause_that_rests_on_what_is_inside(self):
        deep = "use Rattle.std.specs.Prelude.{ℕ, List}\nuse Rattle.one.specs.inside.Deep.{deep as length}"
        assert self.DEEP in self.wrong(self.BOOKS, "use Rattle.std.specs.Prelude.{ℕ, List, length}", deep, exceptions={("one", "Books"): "a view"})

    def test_definition_behind_no_clause_that_is_not_inside(self):
        for name, module in ("AreSteps", "Books"), ("IsStep", "Steps"), ("facts_of", "Kept"):
            assert self.wrong(loose={key for key in self.LOOSE if key[1] != name}) == [f"{module}.{name} of one is behind no clause, and not inside"]
        self.write("crates/two/src/lib.rt", "")
        self.write("crates/two/specs/Piles.antt", "abbrev pub IsPile : Type 0\nIsPile = Unit\n")
        assert self.wrong() == []

    def test_what_is_opaque_ends_the_chain(self):
        marked = self.BOOKS, "-- those of some", "-- opaque: those of some"
        promises, wrong = self.found(*marked)
        assert wrong == [self.NOT_AS_WRITTEN]
        assert "- `one`: `Books` (without `AreSteps`, `kept`)\n\nOpaque, and not counted:\n\n- `one`: `Books` (`kept` alone)\n" in promises.written()
        assert "one: size of Shelf\n    one: Books.ShelfFacts, Books.size_of\n" in self.listed(*marked)

    def test_import_of_what_is_opaque(self):
        deep = "crates/one/specs/inside/Deep.antt"
        brought = f"use Rattle.std.specs.Prelude.{{ℕ, List}}\n{self.IMPORT.replace('{deep}', '{deep as length}')}"
        for mark, is_wrong in ("", True), ("-- opaque: nought\n", False):
            self.TEXTS = {**TestSample.TEXTS, deep: TestSample.TEXTS[deep].replace("abbrev", f"{mark}abbrev")}
            wrong = self.wrong(self.BOOKS, "use Rattle.std.specs.Prelude.{ℕ, List, length}\n", brought)
            assert ("Books of one imports a module from inside" in wrong) == (self.DEEP in wrong) == is_wrong

    def test_name_that_stands_in_two_crates(self):
        for kind, module, name in ("module", "Books", "steps"), ("definition", "Bindings", "IsStep"):
            self.write("crates/two/src/lib.rt", "")
            self.write(f"crates/two/specs/{module}.antt", f"abbrev pub {name} : Type 0\n{name} = Unit\n")
            assert f"one and two have a {kind} {'Books' if kind == 'module' else name} each" in self.wrong()
            os.remove(self.path(f"crates/two/specs/{module}.antt"))
        self.write("crates/two/specs/ShelfLaws.antt", "abbrev pub IsStep : Type 0\nIsStep = Unit\n")
        assert not any("IsStep each" in it for it in self.wrong())

    def test_opaque_definition_that_no_call_gives(self):
        assert self.wrong(self.BOOKS, "-- a step is one", "-- opaque: a step is one") == ["AreSteps (Books of one) is opaque, and no call gives it"]

    def test_opaque_member_of_a_trait(self):
        for mark, is_there in ("", True), ("Opaque: ", False):
            members = f"    // {mark}a step.\n    ghost is_step: {{ ℕ → Type 0 }};\n\n    fn lend(&self) -> u32\n        ensures {{ is_step result }};\n"
            impl = "impl Lends for Shelf {\n    ghost is_step = { λ n. IsStep n };\n}\n"
            said = self.listed(self.SHELF, "pub struct Shelf {", f"pub trait Lends {{\n{members}}}\n\n{impl}\npub struct Shelf {{")
            assert ("one: Lends for Shelf\n    one: Books.ShelfFacts, Steps.IsStep\n" in said) == is_there

    def test_each_call_is_listed(self):
        assert "one: size of Shelf\n    one: Books.ShelfFacts, Books.kept, Books.size_of\n    types of one: Shelf\n" in self.listed()

    def test_call_that_is_exported_to_c(self):
        export = 'pub extern "C" fn steps() -> u32\n    ensures { IsStep result }\n{\n    0\n}\n\nimpl Shelf {\n    pub fn'
        assert "one: steps\n    one: Steps.IsStep\n" in self.listed(self.SHELF, "impl Shelf {\n    pub fn", export)

    def test_what_a_type_owns(self):
        view = "ghost view = { λ shelf. facts_of shelf.books };"
        said = self.listed(self.SHELF, view, view + "\n\n    ghost also_owns = { λ shelf. facts_of shelf.books };")
        assert "one: size of Shelf\n    one: Books.ShelfFacts, Books.kept, Books.size_of, Kept.facts_of\n    types of one: Shelf\n" in said

    def test_contracts_of_a_type_that_a_definition_names(self):
        self.write("crates/one/src/pile.rt", "pub struct Pile {\n    height: u32,\n}\n")
        row = "use Rattle.one.specs.contracts.pile.Pile.{the_row as length}"
        changed = self.BOOKS, "use Rattle.std.specs.Prelude.{ℕ, List, length}", f"use Rattle.std.specs.Prelude.{{ℕ, List}}\n{row}"
        assert self.wrong(*changed) == []
        assert "    types of one: Pile, Shelf\n" in self.listed(*changed)

    def test_call_of_a_library_that_a_program_makes(self):
        count = "ghost use Rattle.one.specs.Steps.{IsStep};\n\npub fn count() -> u32\n    ensures { IsStep result }\n{\n    0\n}\n"
        self.write("crates/one/src/count.rt", count)
        for code, is_made in ("use one::{Shelf, count};\n\nfn main() {\n    count();\n}\n", True), ("use one::count;\n\nfn main() {}\n", False):
            self.write("crates/two/src/main.rt", code)
            assert ("two: count (the program)\n    one: Steps.IsStep\n" in self.listed()) == is_made

    def test_import_that_cannot_be_read(self):
        try:
            self.wrong(self.BOOKS, "use Rattle.std.specs.Prelude.{ℕ, List, length}", "use Rattle.std.specs.Prelude.{ℕ, List, length} in all")
        except AttributeError:
            return
        raise AssertionError("it was read")
