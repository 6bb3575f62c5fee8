"""Runs the tests named refused_.. of the proved crates once for each of their requests for memory, and once for each of their starts of threads, with
that one refused. Each run must pass, and give back all its memory. Then it runs them with that one and each later one of its kind refused. A test
that asks again in vain then may answer its want of memory, but may not find anything else than it expects.

A test that is not built, or makes no request, fails. It is for a tree in which `rt ci` has run, and needs the toolchain.
"""

import functools
import itertools
import re

import built
from refusing import counted

# What a test that answers its want of memory prints, whichever type its error is of.
WANTS = re.compile(r"^[Ee]rror: (?:OutOfMemory|AllocError)\nthe test failed: its result gives status 1$", re.MULTILINE)


def refuse_each(program, name):
    """Refuses each request and each start of a test in turn, alone and with all later ones."""
    run = functools.partial(built.run, program, name)
    ended, counts = counted(run)
    assert built.passes(ended) and counts.requests and not counts.blocks, f"with nothing refused, {counts}: {ended}"
    made = [("request", number) for number in range(1, counts.requests + 1)] + [("start", number) for number in range(1, counts.starts + 1)]
    wrong = []
    for later, (kind, number) in itertools.product((False, True), made):
        ended, after = counted(run, later=later, **{kind: number})
        wants = later and ended[0] == 101 and WANTS.search(ended[1])
        refused = f"with {kind} {number}{' and all later ones' * later} refused"
        if after.blocks or not (built.passes(ended) or wants):
            wrong.append(f"{refused}: {after.blocks} blocks are not given back, {ended}")
        elif getattr(after, f"{kind}s") < number:
            wrong.append(f"{refused}: it was never made")
    print(f"{name}: {counts.requests} requests and {counts.starts} starts refused in turn, and from each on")
    assert not wrong, "\n".join(wrong)


globals().update(built.tests("^refused_", refuse_each))
