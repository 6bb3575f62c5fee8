"""tests/sources/budget.py finds what is over its budget or was not counted, and raises no number without a reason."""

import os
import sys

from common import TESTS, InFolder, failure

sys.path.append(os.path.join(TESTS, "sources"))

from budget import BY_HAND, HEAD, counted, renewed, unexplained, wrong

FILE = f"""{HEAD}one: code 5, specs 1, proofs 3, models 1, goals 1
one_tests: tests 2
all crates: code 5, tests 2 (aim 1), specs 1, proofs 3, models 1, goals 1
specs and proofs of all crates: lines 4
tests of bindings: lines 3
pages: words 32
gate: minutes of a processor 216
{BY_HAND}: insertion 28
"""


class TestOfBudget(InFolder):
    TEXTS = {
        "crates.txt": "one:\none_tests: one\n",
        "crates/one/src/lib.rt": "impl Model for Shelf {\n}\n\n",
        "crates/one/src/deep/shelf.rt": "struct Shelf;\n// impl Model for nothing\n",
        "crates/one/specs/Lib.antt": "pub mod Shelf\n",
        "crates/one/proofs/shelf/Answers.antt": "pub put-returns : goal.put-returns\nput-returns g c = refl\npub plain : ℕ\n",
        "crates/one/out/proofs/Answers.antt": "pub turn-returns : goal.turn-returns\n",
        "crates/one_tests/src/lib.rt": "fn a() {}\nfn b() {}\n",
        "bindings/c/tests/one.c": "int main() {\n}\n",
        "bindings/python/test_one.py": "pass\n",
        "bindings/c/README.md": "Four words of it.\n",
        "bindings/rust/target/notes.md": "not counted\n",
        "docs/PROOFS.md": "| 2 | 48:19 | 95 | passed | today |\n| 4 | 57:39 | 216 | passed | today |\n",
        "README.md": "Six words stand in this one.\n",
    }

    def counted(self, **texts):
        """What is counted in the tree, with other texts for some files, or none."""
        for name, text in {**self.TEXTS, **texts}.items():
            if text is not None:
                self.write(name, text)
        return counted(self.folder)

    def test_tree_within_its_budget(self):
        found = self.counted()
        assert wrong(FILE, found) == []
        assert renewed(FILE, found) == FILE

    def test_number_that_is_over(self):
        for name, old, new, told in (
            ("crates/one/src/lib.rt", "{\n", "{\n\n", "one: code 6 is over 5 by 1"),
            ("crates/one/proofs/shelf/Answers.antt", "pub plain : ℕ", "pub b : goal.b", "one: goals 2 is over 1 by 1"),
            ("bindings/c/tests/one.c", "{\n", "{\n\n\n", "tests of bindings: lines 5 is over 3 by 2"),
            ("README.md", "Six", "Nearly six", "pages: words 33 is over 32 by 1"),
            ("docs/PROOFS.md", "216", "217", "gate: minutes of a processor 217 is over 216 by 1"),
        ):
            found = self.counted(**{name: self.TEXTS[name].replace(old, new, 1)})
            assert told in wrong(FILE, found)
            assert renewed(FILE, found) == FILE

    def test_number_that_fell(self):
        found = self.counted(**{"crates/one/src/lib.rt": "impl Model for Shelf {\n}\n"})
        assert wrong(FILE, found) == [f"{name}: code 5 has to follow: lower it to 4" for name in ("all crates", "one")]
        assert renewed(FILE, found) == FILE.replace("code 5", "code 4")

    def test_crate_that_is_missing(self):
        found = self.counted(**{"crates.txt": "one:\none_tests: one\ntwo: one\n"})
        assert wrong(FILE, found) == ["two: nothing is counted"]
        found = self.counted(**{"crates.txt": "one:\none_tests: one\ntwo: one\n", "crates/two/src/lib.rt": "\n"})
        assert "two: it has no line" in wrong(FILE, found)
        found = self.counted(**{"crates.txt": "one:\n"})
        assert "one_tests: nothing is counted" in wrong(FILE, found)

    def test_nothing_is_counted(self):
        for name in "crates.txt", "docs/PROOFS.md":
            self.write(name, "")
        names = (line.partition(":")[0] for line in FILE.removeprefix(HEAD).splitlines())
        assert wrong(FILE, counted(self.folder)) == [f"{name}: nothing is counted" for name in sorted(names) if name != BY_HAND]

    def test_number_rises_only_for_a_reason_and_not_over_its_aim(self):
        found = self.counted(**{"crates/one/src/lib.rt": "\n" * 9, "crates/one_tests/src/lib.rt": "\n" * 3})
        raised = renewed(FILE, found, "more is said", ["one"])
        assert "\none: code 11, specs 1, proofs 3, goals 1\n# why: code 5 to 11: more is said\none_tests: tests 2\n" in raised
        assert "all crates: code 11 is over 5 by 6" in wrong(raised, found)
        every = renewed(FILE, found, "more is said")
        assert wrong(every, found) == ["all crates: tests 3 is over 2 by 1"]
        assert unexplained(FILE, every) == []
        assert unexplained(FILE, FILE.replace("words 32", "words 33")) == ["pages"]
        assert unexplained(every, every.replace("code 11", "code 12")) == ["one", "all crates"]

    def test_line_that_cannot_be_read(self):
        for text in "one: code five\n", "one\n", "# one: code 5\n":
            assert failure(wrong, FILE + text, self.counted())
