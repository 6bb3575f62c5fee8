"""tests/faults/test_edits.py finds which edits cannot be applied, and which the compiler does not take."""

import os
import sys
from types import SimpleNamespace

from common import TESTS, InFolder

sys.path.append(os.path.join(TESTS, "faults"))

from test_edits import edits_below, lost_folders, wrong_edits


class TestOfEdits(InFolder):
    # Stands in for the compiler: it takes no crate in which the word stands.
    COMPILER = "#!/bin/sh\nif grep -rq nonsense src; then echo 'src/lib.rt:1:1: error: no such word'; exit 1; fi\n"

    def wrong(self, *new):
        """What is wrong with some edits of a crate, by their numbers, of which the first is the gate's."""
        self.write("one/src/lib.rt", "fn nothing() {}\n")
        self.write("rattle", self.COMPILER, 0o755)
        for number, text in enumerate(new):
            tier = "edits/one" if number else "one/must-fail"
            self.write(f"{tier}/{number}.edit", f"{text} {number}")
        crate = SimpleNamespace(name="one", folder=self.path("one"), words=lambda flags: flags)
        rtlib = SimpleNamespace(PARTS=["src", "proofs"], RATTLE=self.path("rattle"), crates_below=lambda top: [crate])
        first = [self.path("one/must-fail/0.edit")] if new else []
        self.rt = SimpleNamespace(rtlib=rtlib, edits_of=lambda crate: (first, []), read_edit=self.read_edit)
        found = wrong_edits(self.rt, edits_below(self.rt, self.folder))
        return {int(os.path.basename(edit)[:-5]): why for edit, why in found.items() if why}

    def read_edit(self, edit, folder):
        """An edit adds its line to the source. An odd one cannot be applied, and one that is jealous not where another was."""
        with open(edit) as file, open(os.path.join(folder, "src/lib.rt")) as source:
            line, text = file.read(), source.read()
        if "odd" in line or "jealous" in line and text != "fn nothing() {}\n":
            return None, "it cannot be applied"
        return {"src/lib.rt": text + line}, None

    def test_edits_of_both_tiers_that_are_taken(self):
        assert self.wrong("something", "anything", "more") == {}
        assert [len(edits) for _, edits in edits_below(self.rt, self.folder, ["one"])] == [3]

    def test_edits_that_are_in_each_other_s_way(self):
        assert self.wrong("something", "jealous", "jealous") == {}

    def test_edit_that_the_compiler_does_not_take(self):
        for at in range(3):
            assert self.wrong(*(["something"] * at + ["nonsense"] + ["something"] * (2 - at))) == {at: "src/lib.rt:1:1: error: no such word"}

    def test_edit_that_cannot_be_applied(self):
        assert self.wrong("something", "odd") == {1: "it cannot be applied"}

    def test_edits_of_no_crate(self):
        self.write("edits/two/0.edit", "something")
        self.wrong("something", "something")
        assert lost_folders(self.rt, self.folder) == ["two"]

    def test_crate_that_is_not_there(self):
        self.wrong("something")
        try:
            edits_below(self.rt, self.folder, ["two"])
        except KeyError as error:
            assert error.args == ("two",)
        else:
            raise AssertionError("it has edits")
