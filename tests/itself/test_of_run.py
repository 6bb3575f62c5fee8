"""tests/run finds what fails."""

import os
import subprocess
import sys

from common import SECONDS, TESTS, InFolder

# Tests in a class, of which one passes, around each of which the class notes what it is called for.
CLASS = """
class TestShelf:
    @classmethod
    def setup_class(cls):
        cls.said = ["class"]

    def setup_method(self):
        self.said.append("method")

    def teardown_method(self):
        self.said.append("end")

    def test_a_first_one(self):
        assert self.said == ["class", "method"]

    def test_b_fails(self):
        assert self.said == []

    def test_c_goes_wrong(self):
        raise OSError("no shelf")
"""


class TestOfRun(InFolder):
    def run(self, *words, status=1, **files):
        """What tests/run prints of some files of tests."""
        for name, text in files.items():
            self.write(f"{name}.py", text)
        how = {"stdout": subprocess.PIPE, "stderr": subprocess.STDOUT, "timeout": SECONDS}
        ran = subprocess.run([sys.executable, os.path.join(TESTS, "run"), *words], cwd=self.folder, **how)
        assert ran.returncode == status
        return ran.stdout.decode()

    def assert_ends(self, line, *words, **files):
        said = self.run(*words, status=int(" 0 failed" not in line), **files)
        assert said.endswith(f"\n{line}\n")
        return said

    def test_functions_that_pass(self):
        files = {"more/test_one": "def test_a():\n    pass\n\ndef test_b():\n    pass\n", "more/deep/test_two": "test_c = lambda: None\ntest_word = 3\n"}
        self.assert_ends("3 passed, 0 failed", "more", **files)

    def test_function_that_fails_says_what_it_compared(self):
        said = self.assert_ends("0 passed, 1 failed", "test_one.py", test_one="def test_a():\n    assert 6 * 7 == len('abc'), 'a word'\n")
        assert "AssertionError\n42\n3\na word\n" in said

    def test_class(self):
        said = self.assert_ends("1 passed, 2 failed", "test_one.py", test_one=CLASS)
        assert "['class', 'method', 'end', 'method', 'end']\n[]\n" in said
        assert "OSError\nno shelf\n" in said

    def test_class_that_cannot_begin_or_end(self):
        for name, passed in ("setup_class", 0), ("teardown_class", 1), ("setup_method", 0), ("teardown_method", 0):
            call = f"    {'@classmethod' * name.endswith('class')}\n    def {name}(it):\n        raise OSError\n"
            self.assert_ends(f"{passed} passed, 1 failed", "test_one.py", test_one=f"class TestShelf:\n{call}\n    def test_a(self):\n        pass\n")

    def test_file_that_has_no_test_or_ends_early_or_is_not_there(self):
        for text in "", "import no_such_module\n", "import sys\nsys.exit(0)\n", "def other():\n    pass\n", "def test_a() pass\n":
            self.assert_ends("0 passed, 1 failed", "test_one.py", test_one=text)
        ends = "import os\n\ndef test_a():\n    pass\n\ndef test_b():\n    os._exit(3)\n"
        self.assert_ends("0 passed, 1 failed", "test_one.py", test_one=ends)
        self.assert_ends("0 passed, 1 failed", "test_other.py")

    def test_files_are_added_up_and_words_choose(self):
        files = {"test_one": CLASS, "test_two": "def test_a():\n    pass\n"}
        self.assert_ends("2 passed, 2 failed", ".", **files)
        self.assert_ends("2 passed, 0 failed", "test_one.py::first", "test_two.py", **files)
        self.assert_ends("0 passed, 1 failed", "test_one.py::no_such_word", **files)
