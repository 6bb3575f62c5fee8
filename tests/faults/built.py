"""The tests of the proved crates as `rt ci` built them: which there are, and what one does."""

import collections
import functools
import glob
import os
import re
import subprocess

from common import CRATES, SECONDS, read

TEST = re.compile(r"#\[test\]\s*(?:#\[.*\]\s*)*fn (\w+)")


def written(crate, pattern):
    """The names of a crate's tests that have a pattern, as its sources have them."""
    sources = glob.glob(os.path.join(crate, "src", "**", "*.rt"), recursive=True)
    return [name for path in sources for name in TEST.findall(read(path)) if re.search(pattern, name)]


def listed(program, pattern):
    """The same names in full, as the crate's built tests have them, or none if they cannot be asked."""
    if not os.access(program, os.X_OK):
        return []
    asked = subprocess.run([program, "--list"], stdin=subprocess.DEVNULL, stdout=subprocess.PIPE).stdout.decode()
    names = [line.partition(": ")[0] for line in asked.splitlines()]
    return [name for name in names if re.search(pattern, name.rpartition("::")[2])]


def run(program, name, **given):
    """The status of a test, or None if it had not ended in time, and what it says."""
    try:
        ran = subprocess.run([program, name], stdin=subprocess.DEVNULL, stdout=subprocess.PIPE, stderr=subprocess.STDOUT, timeout=SECONDS, **given)
    except subprocess.TimeoutExpired:
        return None, f"it had not ended after {SECONDS} seconds"
    return ran.returncode, ran.stdout.decode(errors="replace")


def passes(ended):
    """Whether a test passed that ended so."""
    return ended[0] == 0 and "test result: ok" in ended[1]


def missing(program, name):
    raise AssertionError(f"{program} has no {name}")


def tests(pattern, check, crates=CRATES):
    """A test for each test of the crates whose name has a pattern: it checks that of a program and a full name. One that is not built fails."""
    found = {}
    for crate in sorted(glob.glob(os.path.join(crates, "*"))):
        program, names = os.path.join(crate, "out", f"{os.path.basename(crate)}_tests"), written(crate, pattern)
        built = listed(program, pattern) if names else []
        lacking = collections.Counter(names) - collections.Counter(name.rpartition("::")[2] for name in built)
        for call, full in [*((check, name) for name in built), *((missing, name) for name in lacking)]:
            found[f"test_{os.path.basename(crate)}_{full.replace('::', '_')}"] = functools.partial(call, program, full)
    return found
