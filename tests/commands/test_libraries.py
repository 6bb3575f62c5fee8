"""tools/install and tools/package refuse what they cannot use. What they do is tested by tests/languages."""

import os

from scripts import CopiedScripts


class TestLibraries(CopiedScripts):
    copied = ["tools/install", "tools/package"]

    def test_wrong_words(self):
        for words in ["install"], ["install", "-h"], ["install", "a", "b", "c"], ["install", "--archive", "a"], ["package"], ["package", "a"]:
            out, err, status = self.run_script(f"tools/{words[0]}", *words[1:])
            assert (out, status) == ("", 2), words
            assert err.startswith(f"usage: tools/{words[0]} "), err

    def test_packs_nothing_if_nothing_is_installed(self):
        _, err, status = self.run_script("tools/package", ".", "packs")
        assert (status, os.path.exists(self.path("packs"))) == (2, False)
        assert "where tools/install has put the library" in err
