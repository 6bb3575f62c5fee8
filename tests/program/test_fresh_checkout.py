"""Runs ./run where that takes long: these sources by the toolchain, as on a fresh checkout, and a proof that takes its time."""

import re
import shutil

from common import CRATES
from scripts import CopiedScripts, OverStandIns

# The most seconds that a first answer gets here, where other work may run beside it.
SECONDS = 600


class TestFreshCheckout(CopiedScripts):
    """./run of these sources, none of which is proved."""

    copied = ["run", "crates.txt", "HANDLES", "examples/first.csv", "examples/first.out"]

    def test_first_answer(self):
        shutil.copytree(CRATES, self.path("crates"), ignore=shutil.ignore_patterns("out"))
        out, err, status = self.run_script("./run", "examples/first.csv", seconds=SECONDS)
        assert (out, status) == (self.read("examples/first.out"), 0), err
        assert re.search(r"^run: NOT PROVED: [^\n]*\n$", err)
        out, err, status = self.run_script("./run", given="0,insert,99\n", seconds=SECONDS)
        assert (out, status, err.splitlines()[1:]) == ("", 1, ["augtrie: row 1: OutOfRange"])


class TestLongProof(OverStandIns):
    """./run --proved says how far it is."""

    def test_a_line_at_least_every_ten_seconds(self):
        self.behave(meanwhile='if [[ $crate == low ]]; then echo "so far: 1 of 2 functions checked"; sleep 9; fi\n')
        err = self.run_script("./run", "--proved")[1]
        assert re.search(r"\nrun: after [5-9] s 0 of 4 crates are proved, now low \(1 of 2 functions\)\n", err)
