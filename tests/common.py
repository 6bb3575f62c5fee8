"""What tests of several folders use."""

import contextlib
import importlib.machinery
import importlib.util
import io
import os
import shutil
import tempfile

TESTS = os.path.dirname(os.path.abspath(__file__))
TOP = os.path.dirname(TESTS)
CRATES = os.path.join(TOP, "crates")

# The most seconds that one run of a program gets.
SECONDS = 60


def read(*path):
    """The text of a file, whose path may be one from the repository's top."""
    with open(os.path.join(TOP, *path), encoding="utf-8") as file:
        return file.read()


class InFolder:
    """Tests each of which has a folder of its own, and things to be done after it."""

    def setup_method(self):
        self.after = contextlib.ExitStack()
        self.folder = os.path.realpath(self.after.enter_context(tempfile.TemporaryDirectory(prefix="in-folder-")))

    def teardown_method(self):
        self.after.close()

    def path(self, name):
        return os.path.join(self.folder, name)

    def read(self, name):
        return read(self.folder, name)

    def write(self, name, text, mode=0o644):
        path = self.path(name)
        os.makedirs(os.path.dirname(path), exist_ok=True)
        with open(path, "w", encoding="utf-8") as file:
            file.write(text)
        os.chmod(path, mode)
        return path


def quietly(call, *given, **named):
    """What a call returns, and what it prints."""
    with contextlib.redirect_stdout(io.StringIO()) as said:
        returned = call(*given, **named)
    return returned, said.getvalue()


def failure(call, *given, **named):
    """What an assertion in a call says, or nothing if all hold."""
    try:
        call(*given, **named)
    except AssertionError as error:
        return str(error) or "it failed"
    return ""


def toolchain():
    """The module behind the toolchain's command `rt`."""
    loader = importlib.machinery.SourceFileLoader("rt", os.path.realpath(shutil.which("rt")))
    rt = importlib.util.module_from_spec(importlib.util.spec_from_loader("rt", loader))
    loader.exec_module(rt)
    return rt


def crates_below(rt, top):
    """The crates of a repository by their names, as `rt ci` has them."""
    return {it.name: it for it in rt.rtlib.crates_below(top)}
