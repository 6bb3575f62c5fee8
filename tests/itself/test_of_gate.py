"""What .ci/run runs, and how it adds it up."""

import glob
import os
import subprocess

from common import SECONDS, TESTS, InFolder, read

# A note of rt ci on a program that Rattle's own compiler refused.
NOTE = "rt: note: Rattle's own compiler did not compile this program, so only the LLVM build is run: too large"

LLVM, RATTLE = "crates/augtrie/out/augtrie", "crates/augtrie/out/augtrie.by-rattle"

# Stands in for tests/run: it notes its words and the programs to be tested.
RUN = '#!/bin/sh\necho "$*" >>ran\necho "${PROGRAMS-}" >>programs\necho 10 passed, 0 failed\n'

# Stands in for an rt that proves what the library stands on, or the first of it, and then waits until tests of it run, or five seconds.
SLOW = """#!/bin/sh
echo 'rt: low is kept: an earlier run on this machine proved the same files over the same libraries'
echo 'rt: middle proved'
for _ in 1 2 3 4 5 6 7 8 9 10; do if grep -q languages ran && grep -q edits ran; then break; fi; sleep 0.5; done
echo "rt $*" >>ran
echo 7 passed, 0 failed
"""


# Stands in for an rt that is given the crates ahead of the rest, as it says of a crate that it is kept, and waits for that: it notes what it has.
AHEAD = """#!/bin/sh
# rt: low is kept: an earlier run proved it
if [ -e tests ]; then
    for _ in 1 2 3 4 5 6 7 8 9 10; do if [ -e had ]; then break; fi; sleep 0.5; done
    echo "rt $*" >>ran
else
    (echo "rt $*, RT_JOBS=${RT_JOBS-}"; cat crates.txt; find HANDLES crates -type f | sort) >%s.new && mv %s.new %s
fi
echo 7 passed, 0 failed
"""


class TestOfGate(InFolder):
    def setup_method(self):
        super().setup_method()
        self.write(".ci/run", read(".ci", "run"), 0o755)
        self.write("tests/run", RUN, 0o755)
        self.write("crates.txt", "low:\nmiddle: low\naug_c staticlib: low middle\n")

    def run_gate(self, said="7 passed, 0 failed", status=0, rt=None, jobs="1", words=()):
        """Runs it with an rt that says so and ends so: its last line and its status."""
        for name, text in ("said", said + "\n"), ("ran", ""), ("programs", ""):
            self.write(name, text)
        self.write("bin/rt", rt or f'#!/bin/sh\necho "rt $*" >>ran\ncat said\nexit {status}\n', 0o755)
        env = {**os.environ, "PATH": f"{self.path('bin')}:{os.environ['PATH']}", "RT_JOBS": jobs}
        ran = subprocess.run([self.path(".ci/run"), *words], stdout=subprocess.PIPE, timeout=SECONDS, env=env)
        return ran.stdout.decode().splitlines()[-1], ran.returncode

    def test_runs_each_file_of_tests_once(self):
        assert self.run_gate() == ("37 passed, 0 failed", 0)
        first, *rows = self.read("ran").splitlines()
        assert first == "rt ci"
        names = [os.path.join(TESTS, name) for row in rows for name in row.split()]
        files = [file for name in names for file in glob.glob(f"{name}/**/test_*.py", recursive=True) or [name]]
        assert sorted(files) == sorted(glob.glob(f"{TESTS}/**/test_*.py", recursive=True))
        assert len(files) > 12

    def test_failures_are_added_up(self):
        self.write("tests/run", "#!/bin/sh\necho 3 passed, 2 failed\nexit 1\n", 0o755)
        assert self.run_gate("7 passed, 4 failed", 1) == ("16 passed, 10 failed", 1)

    def test_library_is_tested_beside_the_rest(self):
        assert self.run_gate(rt=SLOW) == ("37 passed, 0 failed", 0)
        *beside, last, after = self.read("ran").splitlines()
        assert (len(beside), last) == (2, "rt ci") and "program" in after

    def test_library_is_not_tested_before_all_that_it_stands_on_is_proved(self):
        assert self.run_gate(rt=SLOW.replace("rt: middle proved", "rt: middle NOT PROVED")) == ("37 passed, 0 failed", 0)
        assert self.read("ran").splitlines()[0] == "rt ci"

    def test_libraries_of_an_earlier_run_are_left_alone(self):
        self.write("crates/low/out/rlib/stamp", "")
        assert self.run_gate(rt=SLOW) == ("37 passed, 0 failed", 0)
        assert self.read("ran").splitlines()[0] == "rt ci"

    def ahead(self, rt=AHEAD, **given):
        """What rt is given ahead of the rest, or nothing."""
        for name in "HANDLES", "crates/low/src/lib.rt", "crates/low/must-fail/one.edit", "crates/middle/proofs/Lib.antt", "crates/aug_c/src/lib.rt":
            self.write(name, "")
        had = self.path("had")
        assert self.run_gate(rt=rt % (had, had, had), **given) == ("37 passed, 0 failed", 0)
        return self.read("had").splitlines() if os.path.exists(had) else []

    def test_what_the_library_stands_on_is_proved_ahead_without_edits(self):
        first, *rest = self.ahead(jobs="4")
        assert first == "rt ci, RT_JOBS="
        assert sorted(rest) == ["HANDLES", "crates/low/src/lib.rt", "crates/middle/proofs/Lib.antt", "low:", "middle: low"]

    def test_nothing_is_proved_ahead_by_an_rt_that_keeps_nothing(self):
        assert self.ahead(rt=AHEAD.replace("is kept: ", ""), jobs="4") == []

    def test_nothing_is_proved_ahead_on_few_processors_or_with_words(self):
        assert self.ahead(jobs="3") == []
        assert self.ahead(jobs="4", words=["--anew"]) == []

    def test_command_that_does_not_count_fails(self):
        assert self.run_gate("7 passed") == ("30 passed, 1 failed", 1)
        assert self.run_gate("7 passed, 0 failed", 3) == ("37 passed, 1 failed", 1)

    def test_bad_edits_fail(self):
        said = "rt: must-fail low/one.edit: BAD EDIT: there is no such text\nrt: note: bad must-fail edits, as told above: 1. They fail nothing here"
        assert self.run_gate(f"{said}\n7 passed, 0 failed") == ("37 passed, 1 failed", 1)

    def programs(self, said="7 passed, 0 failed"):
        """The programs that are tested from outside. What is not there is asked for, and fails then."""
        self.run_gate(said)
        return self.read("programs").split()

    def test_both_builds_are_tested(self):
        assert self.programs() == [LLVM, RATTLE]
        assert self.programs(f"== other\n{NOTE}\n== augtrie\n7 passed, 0 failed") == [LLVM, RATTLE]

    def test_build_that_was_refused_is_not_asked_for(self):
        assert self.programs(f"== augtrie\n{NOTE}\nrt: augtrie proved\n== other\nrt: other proved\n7 passed, 0 failed") == [LLVM]
