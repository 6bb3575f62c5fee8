"""tools/layout finds each file laid out."""

import os
import re
import subprocess

from common import TOP


def test_files_are_laid_out():
    ran = subprocess.run([os.path.join(TOP, "tools", "layout")], capture_output=True, text=True)
    assert re.fullmatch(r"\d\d passed, 0 failed\n", ran.stdout), ran.stdout + ran.stderr
