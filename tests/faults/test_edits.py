"""Says of each must-fail edit, in crates/*/must-fail and in edits/, whether it can be applied, and whether the compiler takes the edited crate: one
that it does not take tries no contract. Nothing is proved here: whether the prover refuses an edit says `rt must-fail` or `tools/edits`.

CRATES=NAME.. in the environment takes the edits of some crates alone. Edits that leave one another in place are compiled together, and by halves if
that fails. The libraries below a crate have to be built, by `rt ci` or `rt lib`. It needs the toolchain.
"""

import concurrent.futures
import functools
import glob
import os
import shutil
import subprocess
import tempfile

from common import TOP, crates_below, toolchain


class Copy:
    """A copy of a crate's files, to which edits are applied."""

    def __init__(self, rt, crate):
        self.rt, self.crate, self.edits = rt, crate, []
        self.held = tempfile.TemporaryDirectory(prefix="edits-")
        for part in filter(os.path.isdir, (os.path.join(crate.folder, it) for it in rt.rtlib.PARTS)):
            shutil.copytree(part, os.path.join(self.held.name, os.path.basename(part)))

    def apply(self, edit):
        """Applies an edit. Why it cannot be, or nothing."""
        texts, why = self.rt.read_edit(edit, self.held.name)
        for path, text in (texts or {}).items():
            with open(os.path.join(self.held.name, path), "w", encoding="utf-8") as file:
                file.write(text)
        self.edits += [] if why else [edit]
        return why

    def compiled(self):
        """What the compiler says against the edited crate, or nothing."""
        words = self.crate.words(["--jobs", "1", "--only", ""])
        how = {"cwd": self.held.name, "stdin": subprocess.DEVNULL, "stdout": subprocess.PIPE, "stderr": subprocess.STDOUT}
        ran = subprocess.run([self.rt.rtlib.RATTLE, "check", *words], **how)
        said = ran.stdout.decode(errors="replace")
        self.held.cleanup()
        return next((line for line in said.splitlines() if "error" in line), said[-200:]) if ran.returncode else ""


def judged(rt, crate, edits):
    """What is wrong with each of some edits that leave one another in place: they are compiled together, and by halves where that fails."""
    copy = Copy(rt, crate)
    for edit in edits:
        copy.apply(edit)
    said = copy.compiled()
    if not said or len(edits) == 1:
        return {edit: said for edit in edits if said}
    middle = len(edits) // 2
    return {**judged(rt, crate, edits[:middle]), **judged(rt, crate, edits[middle:])}


def together(rt, crate, edits):
    """What is wrong with each of some edits."""
    wrong, copies = {}, []
    for edit in edits:
        why = rt.read_edit(edit, crate.folder)[1]
        if why:
            wrong[edit] = why
        elif all(copy.apply(edit) for copy in copies):
            copies.append(Copy(rt, crate))
            copies[-1].apply(edit)
    for copy in copies:
        wrong.update(judged(rt, crate, copy.edits))
    return wrong


def edits_below(rt, top, names=()):
    """Some crates, or all, each with its edits."""
    crates = crates_below(rt, top)
    return [(crates[it], rt.edits_of(crates[it])[0] + sorted(glob.glob(os.path.join(top, "edits", it, "*.edit")))) for it in names or crates]


def wrong_edits(rt, edits):
    """What is wrong with each of the edits of some crates."""
    with concurrent.futures.ThreadPoolExecutor(os.cpu_count()) as lanes:
        return {edit: why for it in lanes.map(lambda of: together(rt, *of), edits) for edit, why in it.items()}


def lost_folders(rt, top):
    """The folders of edits/ that are of no crate."""
    return sorted(set(map(os.path.basename, glob.glob(os.path.join(top, "edits", "*")))) - set(crates_below(rt, top)))


RT = toolchain()
EDITS = edits_below(RT, TOP, os.environ.get("CRATES", "").split())


class TestEdits:
    @classmethod
    def setup_class(cls):
        cls.wrong = wrong_edits(RT, EDITS)

    def test_each_folder_is_of_a_crate_and_there_are_edits(self):
        assert lost_folders(RT, TOP) == []
        assert any(edits for _, edits in EDITS)

    def check(self, edit):
        assert self.wrong.get(edit, "") == ""


for crate, paths in EDITS:
    for path in paths:
        setattr(TestEdits, f"test_{crate.name}_{os.path.basename(path)[:-5]}", functools.partialmethod(TestEdits.check, path))
