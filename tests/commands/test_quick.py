"""tools/quick checks the functions that a change touched, and what names them."""

import shutil

from scripts import CopiedScripts

# Stands in for rt: it notes its folder and words, says what the file said.rt holds, and ends as status.VERB does.
RT = r"""#!/bin/bash
printf '%s:' "${PWD##*/}" >>"$ROOM/called"
printf ' [%s]' "$@" >>"$ROOM/called"
echo >>"$ROOM/called"
cat "$ROOM/said.rt"
exit "$(cat "$ROOM/status.$1")"
"""

# Stands in for git: the commit `base` is the folder of that name, and the file `changed` names what was changed since.
GIT = r"""#!/bin/bash
case $1 in
    merge-base) echo base ;;
    rev-parse) [[ $3 == base* ]] && echo 1234567 ;;
    diff) cat "$ROOM/changed" ;;
    show) cat "$ROOM/${2/://}" ;;
esac
"""


class TestQuick(CopiedScripts):
    copied = ["tools/quick"]

    SCRIPTS = ["tools/layout", "tests/run sources commands itself"]

    SHELF = """//! A shelf.
impl<A: Fn(u32) -> u32> Shelf<A> {
    /// Takes a book out.
    pub fn take(&mut self) -> u32
        requires { IsFull self.old }
    {
        self.books -= 1;
        self.books
    }

    fn is_empty(&self) -> bool {
        self.books == 0
    }
}

impl Drop for Shelf<u32> {
    fn drop(&mut self) {
        empty(self);
    }
}

fn empty(shelf: &mut Shelf) {
    while !shelf.is_empty() {
        shelf.take();
    }
}

#[cfg(test)]
mod tests {
    fn takes() {
        shelf.take();
    }
}
"""

    FILES = {
        "crates.txt": "low:\nmiddle: low of_the_kit\nhigh: low middle\n",
        "crates/low/src/shelf.rt": SHELF,
        "crates/low/specs/Full.antt": "-- no book is missing\nabbrev pub IsFull : Shelf → Type 0\nIsFull shelf = shelf.books ≡ most\n\n"
        "abbrev pub most : ℕ\nmost = 9\n",
        "crates/low/proofs/Counting.antt": "one_less : ℕ\none_less = 8\n",
        "crates/low/proofs/shelf/empty/Answers.antt": "use Rattle.low.proofs.Counting.{one_less}\n",
        "crates/low/proofs/shelf/Shelf/take/Answers.antt": "is_some = refl\n",
        "crates/low/must-fail/take_keeps_the_book.edit": "file: src/shelf.rt\nold: self.books -= 1;\nnew: self.books -= 0;\n",
        "edits/low/empty_is_full.edit": "file: src/shelf.rt\nold: self.books == 0\nnew: self.books == 9\n",
        "crates/middle/src/lib.rt": "fn of(shelf: &Shelf) -> bool {\n    shelf.is_empty()\n}\n",
        "crates/high/src/main.rt": "fn main() {\n    shelf.take();\n}\n",
        "crates/high/src/other.rt": "// take() is not called here\nfn other() {}\n",
        "docs/shelf.md": "A shelf.\n",
    }

    def setup_method(self):
        super().setup_method()
        self.write("bin/rt", RT, 0o755)
        self.write("bin/git", GIT, 0o755)
        for name, text in self.FILES.items():
            self.write(name, text)
            self.write(f"base/{name}", text)
        for name in self.SCRIPTS:
            self.write(name.split()[0], "#!/bin/sh\necho 3 passed, 0 failed\n", 0o755)
        self.write("said.rt", "fn some: proved\nonly=1 proved=1\n")

    def quick(self, *changes, words=(), status=0, ends=0):
        """What it calls and says of some changes, each a file with a text of it and one in its place."""
        for name, old, new in changes:
            assert self.FILES[name].count(old) == 1
            self.write(name, self.FILES[name].replace(old, new))
        self.write("changed", "".join(f"{name}\n" for name, _, _ in changes))
        self.write("called", "")
        self.write("status.check", str(status))
        out, err, ended = self.run_script("tools/quick", *words)
        assert (err, ended) == ("", ends), out
        for name in self.SCRIPTS:
            assert out.count(f"  {name}: ") == 1
        return self.read("called").splitlines(), out

    def test_text_is_not_checked(self):
        called, out = self.quick(("docs/shelf.md", "A shelf.", "The shelf."), ("crates/low/specs/Full.antt", "no book is", "none is"))
        assert called == []
        assert "edits of low: the old texts of 0 stand once each" in out
        assert self.quick(("crates/low/src/shelf.rt", "/// Takes a book out.", "/// Takes one."))[0] == []

    def test_body_is_checked_and_its_edit_named(self):
        called, out = self.quick(("crates/low/src/shelf.rt", "self.books -= 1;", "self.books -= 1; "))
        assert called == ["low: [check] [--only] [Shelf::take]"]
        assert "rt check in low: Shelf::take: only=1 proved=1; not its other files" in out
        changed = "in changed functions: take_keeps_the_book (rt must-fail low, tools/edits low)"
        assert f"the old texts of 2 stand once each, and none was tried; {changed}\n" in out

    def test_module_of_a_trait_is_checked(self):
        assert self.quick(("crates/low/src/shelf.rt", "        empty(self);", ""))[0] == ["low: [check] [--only] [low::shelf]"]

    def test_callers_of_a_contract_are_checked(self):
        called, _ = self.quick(("crates/low/src/shelf.rt", "IsFull self.old", "IsFull self.new"))
        assert called == ["low: [check] [--only] [Shelf::take] [--only] [low::shelf::empty]", "high: [check] [--only] [high::main]"]
        called, _ = self.quick(("crates/low/src/shelf.rt", "fn is_empty(&self) -> bool", "fn is_empty(&self) -> u32"))
        assert called[1] == "middle: [check] [--only] [middle::of]"

    def test_what_names_a_definition_is_checked(self):
        called, _ = self.quick(("crates/low/specs/Full.antt", "most = 9", "most = 8"))
        assert called == ["low: [check] [--only] [Shelf::take] [--only] [low::shelf::empty]", "high: [check] [--only] [high::main]"]

    def test_functions_of_answers_and_lemmas_are_checked(self):
        called, _ = self.quick(("crates/low/proofs/shelf/Shelf/take/Answers.antt", "refl", "sym refl"))
        assert called == ["low: [check] [--only] [Shelf::take]"]
        called, _ = self.quick(("crates/low/proofs/Counting.antt", "8", "7 + 1"))
        assert called == ["low: [check] [--only] [low::shelf::empty]"]

    def test_tests_are_named_and_not_run(self):
        self.write("crates/low/src/lib.rt", "#[cfg(test)]\nmod shelf;\n")
        called, out = self.quick(("crates/low/src/shelf.rt", "self.books -= 1;", "self.books -= 1; "))
        assert called == []
        assert "not covered: crates/low/src/shelf.rt changed: rt test in its crate" in out

    def test_edit_that_stands_no_more_fails(self):
        _, out = self.quick(("crates/low/src/shelf.rt", "self.books == 0", "self.books < 1"), ends=1)
        assert "edits of low: FAILED: empty_is_full: an old text stands 0 times in crates/low/src/shelf.rt\n" in out

    def test_check_that_fails_is_told(self):
        self.write("said.rt", "fn good: proved\nsrc/shelf.rt:7: error: a sum may wrap\n")
        for status, word in (1, "FAILED"), (2, "NOT JUDGED"), (3, "NOT JUDGED"):
            _, out = self.quick(("crates/low/src/shelf.rt", "self.books -= 1;", "self.books -= 1; "), status=status, ends=min(status, 2))
            assert f"rt check in low: {word}: Shelf::take\nsrc/shelf.rt:7: error: a sum may wrap\n" in out

    def test_checks_end_with_the_time(self):
        self.write("bin/rt", "#!/bin/sh\nsleep 50\n", 0o755)
        change = "crates/low/src/shelf.rt", "IsFull self.old", "IsFull self.new"
        _, out = self.quick(change, words=["--minutes", "0.01"], ends=2)
        assert "rt check in low: NOT JUDGED: stopped, for the time was over: Shelf::take low::shelf::empty\n" in out
        assert "rt check in high: NOT JUDGED: no time was left for high::main\n" in out

    def test_script_that_fails(self):
        self.write("tests/run", '#!/bin/sh\necho "$*: 2 passed, 1 failed"\nexit 1\n', 0o755)
        assert "tests/run sources commands itself: FAILED: sources commands itself: 2 passed, 1 failed\n" in self.quick(ends=1)[1]

    def test_commit_that_is_not_there(self):
        out, err, status = self.run_script("tools/quick", "other")
        assert (out, err, status) == ("", "tools/quick: there is no commit other\n", 1)

    def test_range_of_the_history(self):
        shutil.copytree(self.path("base"), self.path("end"))
        self.write("end/crates/low/src/shelf.rt", self.SHELF.replace("self.books -= 1;", "self.books -= 2;"))
        self.write("changed", "crates/low/src/shelf.rt\n")
        self.write("called", "")
        self.write("status.check", "0")
        assert self.run_script("tools/quick", "base..end")[1:] == ("", 0)
        assert self.read("called").splitlines() == ["low: [check] [--only] [Shelf::take]"]
