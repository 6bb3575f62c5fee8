"""Runs scripts of the repository in a folder of their own, and ./run over programs that stand in for the toolchain and the built program."""

import os
import re
import shutil
import subprocess

from common import SECONDS, TOP, InFolder

# Stands in for rt under ./run: it notes its folder and words, and the processors that it was given, does what the file meanwhile holds, says said.rt, and told.rt on its errors, and ends
# as status.VERB does. `rt try` notes the script and the input that it was given. `rt lib` and `rt run` leave the names of the libraries that stand
# there, and `rt run` builds a program.
PROVER = r"""#!/bin/bash
crate=${PWD##*/}
verb=$1
for word; do if [[ $word == script=* ]]; then script=$(cat "${word#script=}"); fi; done
words=" $* "
if [[ $words =~ \ --jobs\ ([0-9]+)\  ]]; then echo "$crate jobs ${BASH_REMATCH[1]} nice $(nice)" >>"$ROOM/given"; fi
noted="$crate:$(printf ' [%s]' "${@/#script=*/script}")"
if [[ $verb == try ]]; then noted+=" script=$script input=$(cat)"; fi
echo "$noted" >>"$ROOM/called"
. "$ROOM/meanwhile"
cat "$ROOM/said.rt"
cat "$ROOM/told.rt" >&2
status=$(cat "$ROOM/status.$verb")
if [[ $verb != try ]] && ((status == 0)); then
    mkdir -p out/rlib
    (cd .. && echo */out/rlib) >out/rlib/over
    if [[ $verb == run ]]; then cp "$ROOM/program" out/augtrie; fi
fi
exit "$status"
"""

# Stands in for the built program: it shows its words and its input.
PROGRAM = r"""#!/bin/bash
printf '[%s]' "$@"
echo " $(cat)"
exit 3
"""


class CopiedScripts(InFolder):
    """A test in a folder of its own, which has copies of some of the repository's scripts, and programs that come before all others."""

    copied = ()

    def setup_method(self):
        super().setup_method()
        for name in self.copied:
            shutil.copy(os.path.join(TOP, name), self.write(name, ""))

    def run_script(self, *words, given="", path=None, seconds=SECONDS, **variables):
        """What a script wrote to its output and to its errors, and its status."""
        path = path or f"{self.folder}/bin:{os.environ['PATH']}"
        env = {**os.environ, "PATH": path, "ROOM": self.folder, **variables}
        how = {"cwd": self.folder, "input": given, "capture_output": True, "text": True, "timeout": seconds}
        ran = subprocess.run([self.path(words[0]), *words[1:]], env=env, **how)
        return ran.stdout, ran.stderr, ran.returncode


class OverStandIns(CopiedScripts):
    """A test of ./run over four crates and a fifth that the program does not stand on, and a toolchain that does as it is told."""

    copied = ["run"]

    CRATES = {"low": "", "left": "low", "right": "low of_the_kit", "augtrie may_wait=9": "left low right", "apart": "low"}
    PROVED = ["augtrie: [run] [--] [--help]", "left: [lib]", "low: [lib]", "right: [lib]"]
    ENDED = "checked: ended status=3\nraces: not looked for\nrun=ended status=3 runners=1 proved=no\n"

    def setup_method(self):
        super().setup_method()
        self.write("bin/rt", PROVER, 0o755)
        self.write("program", PROGRAM, 0o755)
        self.write("crates.txt", "".join(f"{crate}: {below}\n" for crate, below in self.CRATES.items()))
        for crate in self.CRATES:
            for name in "src/lib.rt", "specs/Lib.antt", "proofs/Lemmas.antt":
                self.write(f"crates/{crate.split()[0]}/{name}", "as it was\n")
        os.mkdir(self.path("tmp"))
        self.behave()

    def behave(self, said="", told="", meanwhile="", **ends):
        """Has rt say and do so, and end with a status for each of its verbs, and forgets how it was called."""
        for verb in "lib", "run", "try":
            self.write(f"status.{verb}", str(ends.get(verb, 0)))
        for name, text in (("said.rt", said), ("told.rt", told), ("meanwhile", meanwhile), ("called", ""), ("given", "")):
            self.write(name, text)

    def run_script(self, *words, **how):
        return super().run_script(*words, TMPDIR=self.path("tmp"), **how)

    def called(self):
        """How rt was called, without the number of jobs that it was given."""
        return re.sub(r" \[--jobs\] \[\d+\]", "", self.read("called")).splitlines()

    def prove(self):
        self.behave()
        assert self.run_script("./run", "--proved")[2] == 3
        assert sorted(self.called()) == self.PROVED
        self.behave("a report\n", self.ENDED, **{"try": 3})

    def assert_checked(self, *words, is_so=True):
        """Whether it runs the program built with checks, and not the proved one."""
        out, err, status = self.run_script("./run", *words)
        assert (out, err.count("\n"), status) == (("a report\n", 1, 3) if is_so else (f"{''.join(map('[{}]'.format, words)) or '[]'} \n", 0, 3)), err

    def assert_proved(self, *words):
        self.assert_checked(*words, is_so=False)

    def age(self):
        """Makes all that is there, but for what was built, older than that."""
        for at, folders, files in os.walk(self.folder):
            for name in files + folders:
                if "/out" not in f"{at}/{name}":
                    os.utime(os.path.join(at, name), (0, 1e8))
