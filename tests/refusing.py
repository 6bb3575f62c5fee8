"""Runs programs with a request for memory or the start of a thread refused. It needs the toolchain, whose C compiler makes the library that
refuses them."""

import collections
import functools
import os
import subprocess
import tempfile

from common import TESTS

# How many requests for memory and starts of threads a program made, and how many blocks it had not given back at its end.
Counts = collections.namedtuple("Counts", "requests starts blocks")

HELD = tempfile.TemporaryDirectory(prefix="refusing-")


@functools.lru_cache
def clang():
    """The toolchain's C compiler."""
    page = subprocess.run(["rt", "doc"], stdout=subprocess.PIPE, check=True).stdout.decode().strip()
    return os.path.join(os.path.dirname(page), "toolchain", "bin", "clang")


def compile_c(source, made, words=()):
    """Makes a program, or by these words a library, of a file in C."""
    subprocess.run([clang(), "-O1", "-fno-builtin", "-fuse-ld=lld", *words, "-o", made, source], check=True)


@functools.lru_cache
def library():
    """The library that refuses them."""
    made = os.path.join(HELD.name, "refuse.so")
    compile_c(os.path.join(TESTS, "refuse.c"), made, ["-fPIC", "-shared", "-nostdlib"])
    return made


def counted(run, request=0, start=0, later=False):
    """What `run` returns, which is given the environment of its program and what it is to pass on, and the counts of the program. The request
    for memory or the start of a thread of a number, counted from 1, is refused, and if `later` is true each later one; of number 0 none is."""
    reader, writer = os.pipe()
    refused = {"REFUSED_REQUEST": str(request), "REFUSED_START": str(start), "LATER_TOO": str(int(later))}
    try:
        returned = run(env={"LD_PRELOAD": library(), "COUNTS_TO": str(writer), **refused}, pass_fds=[writer])
        os.close(writer)
        told = os.read(reader, 65536)
    finally:
        os.close(reader)
    return returned, Counts(*(told.count(kind) for kind in (b"m", b"t", b"b")))
