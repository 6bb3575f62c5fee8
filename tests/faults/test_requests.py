"""Runs the tests of the proved crates whose names say how often they ask for memory, as ..asks_2_times_for_memory, and counts how often they do. What
asks more often than is meant meets every contract. It is for a tree in which `rt ci` has run, and needs the toolchain.
"""

import functools
import re

import built
from refusing import counted

# The end of such a test's name.
SAYS = r"_asks?_(\d+)_times_for_memory$"


def count_requests(program, name):
    ended, counts = counted(functools.partial(built.run, program, name))
    assert built.passes(ended), ended
    assert counts.requests == int(re.search(SAYS, name)[1])


globals().update(built.tests(SAYS, count_requests))
