"""./run runs the program with checks at run time if the proved one is not there, and --proved proves and builds that first."""

import functools
import os
import re
import shutil
import signal
import subprocess
import time

from common import SECONDS
from scripts import OverStandIns


class TestRun(OverStandIns):
    def test_fresh_checkout_runs_with_checks_and_says_so_in_a_line(self):
        self.write("first.csv", "0,look\n")
        self.behave("a report\n", f"augtrie: what the program says\n{self.ENDED}", **{"try": 3})
        for words in ["./run"], ["./run", "--unproved"]:
            out, err, status = self.run_script(*words, "first.csv")
            assert (out, status) == ("a report\n", 3)
            assert re.search(r"^run: NOT PROVED: .* \./run --proved .* in about 1 min\naugtrie: what the program says\n$", err)
            assert self.called() == ["augtrie: [try] [--data] [script] [--] [script] script=0,look input="]
            self.write("called", "")
        assert os.listdir(self.path("tmp")) == []

    def test_words_are_passed_on_and_the_file_is_copied(self):
        self.behave("a report\n", self.ENDED, **{"try": 3})
        for name in "a script.csv", "5":
            self.write(name, f"{name}\n")
        for words, given, noted in (
            (["--workers", "5", "a script.csv", ""], "no", "[--data] [script] [--] [--workers] [5] [script] [] script=a script.csv input="),
            (["/dev/stdin", "--bits=5"], "0,look\n", "[--data] [script] [--] [script] [--bits=5] script=0,look input="),
            (["--bits", "5"], "0,size\n", "[--] [--bits] [5] script= input=0,size"),
            (["not there.csv"], "no", "[--] [script] script= input="),
            (["tmp"], "no", "[--] [script] script= input="),
            (["--help"], "no", "[--] [--help] script= input="),
            ([], "0,rank,9\n", "[--] script= input=0,rank,9"),
        ):
            self.write("called", "")
            self.run_script("./run", *words, given=given)
            assert self.called() == [f"augtrie: [try] {noted}"]

    def test_what_the_checks_cannot_take_ends_in_a_line_and_no_report(self):
        why = "the program wrote more than 1048576 bytes to standard output"
        for status in 0, 6:
            self.behave("a part of a report\n", f"the end:\n| 1 0 look = ok\nchecked: no-answer: {why}\nrun=no-answer proved=no\n", **{"try": status})
            out, err, ended = self.run_script("./run")
            assert (out, ended, err.count("\n")) == ("", 5, 2), err
            assert re.search(f"\nrun: no report: {why}; ./run --proved .*\n$", err)

    def test_checked_build_that_fails_is_told(self):
        for told in "src/main.rt:1: error: no such name\nrun=none proved=no\n", "checked: fault: an overflow\nrun=fault proved=no\n", "", self.ENDED:
            self.behave("a part of a report\n", told, **{"try": 1})
            out, err, ended = self.run_script("./run")
            assert (out, ended) == ("", 5)
            assert f"\n{told}run: no report: " in err
            assert "--proved" in err.splitlines()[-1]

    def test_proves_the_crates_lowest_first_and_runs_the_program(self):
        out, err, status = self.run_script("./run", "--proved", "--bits", "5", "a name", "", given="rows")
        assert (out, status) == ("[--bits][5][a name][] rows\n", 3)
        assert sorted(self.called()) == self.PROVED
        assert (self.called()[0], self.called()[-1]) == ("low: [lib]", self.PROVED[0])
        assert "run: proves 4 crates " in err
        for crate, below in ("low", []), ("left", ["low"]), ("augtrie", ["left", "low", "right"]):
            over = self.read(f"crates/{crate}/out/rlib/over").split()
            assert over == sorted(f"{it}/out/rlib" for it in [*below, crate])
        assert os.listdir(self.path("tmp")) == []

    def test_crates_apart_are_proved_at_the_same_time(self):
        both = "[[ -e $ROOM/left && -e $ROOM/right ]]"
        both = f"for _ in {{1..300}}; do if {both}; then break; fi; sleep 0.1; done; {both} || exit 1"
        self.behave(meanwhile=f': >"$ROOM/$crate"; if [[ $crate == left || $crate == right ]]; then {both}; fi\n')
        assert self.run_script("./run", "--proved")[2] == 3

    def test_long_proofs_get_the_processors_and_the_one_that_others_wait_for_comes_first(self):
        self.write("crates/right/src/lib.rt", "a line\n" * 40000)
        self.run_script("./run", "--proved")
        given = {it.split()[0]: it.split()[1:] for it in self.read("given").splitlines()}
        assert sorted(given) == ["augtrie", "left", "low", "right"]
        assert 1 <= int(given["right"][1]) <= min(os.cpu_count(), 8)
        assert [int(given[it][1]) for it in ("low", "left", "augtrie")] == [1, 1, 1]
        base = os.nice(0)
        assert [int(given[it][3]) - base for it in ("low", "right", "left", "augtrie")] == [0, 0, min(10, 19 - base), 0]

    def test_runs_what_is_proved_already(self):
        self.prove()
        self.assert_proved("first.csv")
        assert self.run_script("./run", "--proved", "first.csv") == ("[first.csv] \n", "", 3)
        assert self.called() == []

    def test_unproved_runs_with_checks_also_then(self):
        self.prove()
        self.assert_checked("--unproved")

    def test_changed_source_takes_the_proof_away(self):
        self.prove()
        for name in "crates/low/src/lib.rt", "crates/left/specs/Lib.antt", "crates/augtrie/proofs/Lemmas.antt", "crates.txt":
            text = self.read(name)
            self.write(name, text.replace("\n", " \n"))
            self.age()
            self.assert_checked("first.csv")
            self.write(name, text)
            self.assert_proved("first.csv")
        self.write("crates/right/src/new.rt", "")
        self.assert_checked("first.csv")
        self.prove()
        os.remove(self.path("crates/right/src/new.rt"))
        self.assert_checked("first.csv")

    def test_source_that_is_not_the_programs_counts_for_nothing(self):
        self.prove()
        self.write("crates/apart/src/lib.rt", "changed\n")
        self.assert_proved("first.csv")

    def test_source_that_changes_during_the_proof_is_not_proved(self):
        self.behave(meanwhile='if [[ $crate == augtrie ]]; then echo changed >"$ROOM/crates/low/src/lib.rt"; fi\n')
        assert self.run_script("./run", "--proved")[2] == 3
        self.behave("a report\n", self.ENDED, **{"try": 3})
        self.assert_checked()

    def test_program_that_the_gate_left_is_held_to_the_times_of_the_sources(self):
        shutil.copy(self.path("program"), self.write("crates/augtrie/out/augtrie", "", 0o755))
        self.behave("a report\n", self.ENDED, **{"try": 3})
        for name in "crates/low/src/lib.rt", "crates/left/specs", "crates/augtrie/proofs/Lemmas.antt", "crates.txt":
            self.age()
            self.assert_proved("first.csv")
            os.utime(self.path(name))
            self.assert_checked("first.csv")

    def test_proof_that_fails_is_told(self):
        said = "so far: 1 of 2 functions checked\nfn low::good: proved\nfn low::bad: NOT PROVED\n"
        for verb, crate in ("lib", "low"), ("run", "augtrie"):
            self.behave(said, **{verb: 1})
            out, err, status = self.run_script("./run", "--proved", "first.csv")
            assert (out, status) == ("", 5)
            assert "fn low::bad: NOT PROVED\n" in err
            assert "low::good" not in err
            assert f"run: {crate} was not proved or not built" in err
            self.behave("a report\n", self.ENDED, **{"try": 3})
            self.assert_checked()

    def test_proof_that_is_interrupted_leaves_no_program_and_nothing_that_runs(self):
        for number, crate, is_older in (signal.SIGINT, "low", False), (signal.SIGTERM, "augtrie", False), (signal.SIGINT, "augtrie", True):
            if is_older:
                self.prove()
                self.write("crates/low/src/lib.rt", "changed\n")
            self.behave(meanwhile=f'if [[ $crate == {crate} ]]; then mkdir -p out; cp "$ROOM/program" out; echo $$ >"$ROOM/pid"; exec sleep 50; fi\n')
            env = {**os.environ, "PATH": f"{self.folder}/bin:{os.environ['PATH']}", "ROOM": self.folder, "TMPDIR": self.path("tmp")}
            # A gate in the background hands on that interrupts are ignored.
            takes_interrupts = functools.partial(signal.signal, signal.SIGINT, signal.SIG_DFL)
            streams = {"stdout": subprocess.PIPE, "stderr": subprocess.DEVNULL}
            ran = subprocess.Popen([self.path("run"), "--proved"], env=env, **streams, preexec_fn=takes_interrupts)
            until = time.monotonic() + SECONDS
            while not (os.path.exists(self.path("pid")) and self.read("pid")) and time.monotonic() < until:
                time.sleep(0.05)
            ran.send_signal(number)
            assert ran.communicate(timeout=SECONDS)[0] == b""
            assert (ran.returncode, os.listdir(self.path("tmp"))) == (128 + number, [])
            assert not os.path.exists(f"/proc/{int(self.read('pid'))}")
            os.remove(self.path("pid"))
            self.behave("a report\n", self.ENDED, **{"try": 3})
            self.assert_checked()
            assert os.path.exists(self.path("crates/augtrie/out/augtrie")) == is_older
