"""Runs the tests of the proved crates whose names say that a thread sleeps, as .._sleeps_for_1_second, and measures how long they take, and how
long a processor works meanwhile. A thread that looks again and again while it waits meets every contract. A test has to take as long as its name
says, and a processor may work for a quarter of that. It is for a tree in which `rt ci` has run.
"""

import re
import resource
import time

import built

# The end of such a test's name.
SAYS = r"_sleeps_for_(\d+)_seconds?$"


def worked():
    """How many seconds processors worked in the programs that were run and have ended."""
    used = resource.getrusage(resource.RUSAGE_CHILDREN)
    return used.ru_utime + used.ru_stime


def measure(program, name):
    said, begun, before = int(re.search(SAYS, name)[1]), time.monotonic(), worked()
    ended = built.run(program, name)
    took, work = time.monotonic() - begun, worked() - before
    print(f"{name}: {took:.2f} seconds, a processor worked for {work:.2f} of them")
    assert built.passes(ended), ended
    assert took >= said
    assert work <= said / 4


globals().update(built.tests(SAYS, measure))
