"""Each crate of tests asserts by functions of the module `assertions` that aug_monoid_tests tests: by those that it calls, as each is proved."""

import glob
import os
import re

from common import CRATES, read


def test_each_copy_has_functions_of_the_one_that_is_tested():
    crates = glob.glob(os.path.join(CRATES, "*_tests"))
    copies = {os.path.basename(it): read(it, "src", "assertions.rt").strip().split("\n\n") for it in crates}
    assert len(copies) >= 10
    tested = copies["aug_monoid_tests"]
    assert sum("fn equal<" in part for part in tested) == 1
    imports = re.compile(r"(?://! .*\n?)*(?:(?:ghost )?use .*\n?)*")
    other = {name: [part for part in parts if part not in tested and not imports.fullmatch(part)] for name, parts in copies.items()}
    assert {name: parts for name, parts in other.items() if parts} == {}
