"""No number of budget.txt is over what it may be, or has to be lowered, and where one rose the file says why."""

import subprocess

from budget import LIST, counted, unexplained, wrong
from common import TOP, read


def states():
    """The file as it is and as its last commits have it, as far as there are some, the newest first."""
    git = ["git", "-C", TOP]
    commits = subprocess.run([*git, "log", "-2", "--format=%H", "--", LIST], capture_output=True, text=True).stdout.split()
    return [read(LIST), *(subprocess.run([*git, "show", f"{it}:{LIST}"], capture_output=True, text=True, check=True).stdout for it in commits)]


def test_nothing_is_over_its_budget():
    found = counted(TOP)
    assert wrong(read(LIST), found) == []
    assert len(found) > 30 and found["all crates"]["code"] > 10000


def test_what_rose_says_why():
    found = states()
    assert [unexplained(before, after) for after, before in zip(found, found[1:])] == [[]] * (len(found) - 1)
