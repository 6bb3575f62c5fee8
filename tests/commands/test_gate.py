"""tools/gate runs the gate on a clone, and writes how long it took."""

import os
import re

from scripts import CopiedScripts

# Stands in for git: a clone is a copy of the folder `fresh`.
GIT = '#!/bin/sh\ncp -r "$ROOM/fresh/." "$4"\n'

# Stands in for the prover: it works for as many seconds as its last word says, and a bit.
RATTLE = "#!/usr/bin/env python3\nimport sys, time\nwhile time.process_time() < int(sys.argv[-1]) + 0.4: pass\n"

GATE = """#!/bin/sh
echo "said $* $(cd "$ROOM/rattle-kept" && ls *)"
mkdir -p "$ROOM/rattle-kept/both" && touch "$ROOM/rattle-kept/both/new"
rattle build --crate-name low 3 &
rattle build --crate-name low --test 2 &
mkdir -p rt-edit-1 && (cd rt-edit-1 && rattle check --crate-name low 1)
env -u TIMED_GATE rattle build --crate-name of_another_run 1
wait
echo '5 passed, 1 failed'
exit 3
"""

PAGE = """# Proofs

<!-- tools/gate has written what follows -->
| Cores | Minutes | Minutes of a processor | Ended with | On |
|---|---|---|---|---|
| 0 | 12:34 | 25 | 6 passed, 0 failed | a day |
| 999 | 1:00 | 99 | 6 passed, 0 failed | a day |

Old.
<!-- and this ends it -->

The rest.
"""


class TestGate(CopiedScripts):
    copied = ["tools/gate"]

    def said(self):
        """What it says and ends with."""
        self.write("kit/bin/rt", "#!/bin/sh\n", 0o755)
        self.write("bin/git", GIT, 0o755)
        if not os.path.lexists(self.path("bin/rt")):
            os.symlink("../kit/bin/rt", self.path("bin/rt"))
        self.write("bin/rattle", RATTLE, 0o755)
        self.write("fresh/.ci/run", GATE, 0o755)
        self.write("docs/PROOFS.md", PAGE)
        said, _, status = self.run_script("tools/gate")
        return said.splitlines()[0], said.splitlines()[-1], status

    def kept(self, *names):
        """What the toolchain has kept, which lies beside it, after a run behind which this was there."""
        for name in names:
            self.write(name, "")
        assert self.said() == ("said  ", "5 passed, 1 failed", 3)
        return sorted(os.path.relpath(os.path.join(at, it), self.folder) for at, _, files in os.walk(self.folder) for it in files if "rattle-kept" in at)

    def test_what_was_kept_lies_aside_and_comes_back(self):
        assert self.kept("rattle-kept/both/old", "rattle-kept/one") == ["rattle-kept/both/new", "rattle-kept/both/old", "rattle-kept/one"]

    def test_what_a_killed_run_left_aside_comes_back(self):
        assert self.kept("rattle-kept-aside/one", "rattle-kept/two") == ["rattle-kept/both/new", "rattle-kept/one", "rattle-kept/two"]
        assert self.kept() == ["rattle-kept/both/new", "rattle-kept/one", "rattle-kept/two"]

    def test_what_is_written(self):
        assert self.said() == ("said  ", "5 passed, 1 failed", 3)
        text = re.sub(r"(?<=on )\d+(?= cores)", "..", self.read("docs/PROOFS.md"))
        text = re.sub(r"\| \d+ \| 0:\d\d \| 0 (.*)\| \d+ \w+ \d{4} \|", r"| .. | 0:.. | 0 \1| .. |", text)
        head, _, end = PAGE.partition("| 999")
        assert re.sub(r"(?<=all else )\d+", "..", text) == f"""{head}| .. | 0:.. | 0 | 5 passed, 1 failed | .. |
| 999 | 1:00 | 99 | 6 passed, 0 failed | a day |

Seconds of a processor on .. cores: proofs of crates 3; proofs of tests 2; edits and second proofs 1; all else ... The most: `low` 3, `low` (tests) 2, `low` (edits) 1.
{end.partition("Old.")[2][1:]}"""
