"""Installs the library for other languages below a folder of its own, as both compilers of the toolchain build it, and runs the tests and
examples of bindings/ over it, and those in C under valgrind as well. Over the library as LLVM builds it, some in C run under sanitizers, the benchmark
in bench/ runs briefly, and what tools/package makes is used in a place that has neither the toolchain nor this repository. Tests with `names` in their
names build nothing, and compare the names of the calls and the codes. One has the Rust crate checked, documented and not built without the library.

What is not proved yet is proved first. AFTER_CI=1 in the environment is for a tree in which `rt ci` has just run: the library is proved once for both
compilers, over the libraries below it as that run left them, which `rt lib` would prove again. With CROWD_SECONDS=60, each test with a crowd of
threads takes a minute, and not some seconds. It says what it leaves out if a compiler, Python's headers or another tool is missing. It needs the
toolchain.
"""

import functools
import glob
import itertools
import os
import re
import shutil
import subprocess
import sys
import sysconfig
import tarfile
import tempfile
import xml.etree.ElementTree
import zipfile

from common import TOP, crates_below, read, toolchain

BINDINGS = os.path.join(TOP, "bindings")
BACKENDS = ["llvm", "rattle"]
CC = os.environ.get("CC", "cc")
CXX = os.environ.get("CXX", "c++")
WARNINGS = ["-Wall", "-Wextra", "-Werror", "-pedantic"]
PYTHON, PIP = "Python.h or pip", [sys.executable, "-m", "pip", "install", "-q", "--no-index", "--disable-pip-version-check"]

# The calls in whose place the test of refusals has its own.
REFUSED = "-Wl,--wrap=malloc,--wrap=calloc,--wrap=realloc,--wrap=pthread_mutex_init,--wrap=aug_try_add"

# For how many seconds a crowd of threads works.
CROWD_SECONDS = os.environ.get("CROWD_SECONDS", "2")

# How programs are built for the sanitizers, and how these are told to report what they find.
SANITIZERS = {
    "thread": ["-fsanitize=thread"],
    "address": ["-fsanitize=address,undefined", "-fno-sanitize-recover=all"],
}
SUPPRESSED = os.path.join(BINDINGS, "c", "augtrie.supp")
REPORTS = {
    "TSAN_OPTIONS": f"halt_on_error=1:exitcode=66:suppressions={SUPPRESSED}",
    "ASAN_OPTIONS": "detect_leaks=1:exitcode=66",
    "LSAN_OPTIONS": "exitcode=66",
}

# The rows of tests/rows, and the fewest that each player has to play, with those that are drawn.
ROWS = sorted(glob.glob(os.path.join(TOP, "tests", "rows", "*.rows")))
LEAST_ROWS = {"c": 320000, "rust": 170000, "python": 90000}

# The fewest tests that each part must have run in one folder, and the fewest answers that the benchmark compares of an engine and a workload.
LEAST_PYTHON, LEAST_RUST, LEAST_ANSWERS = 35, 25, 2001

# The engines of the benchmark, and the types that their threads work with. The last one needs a crate that may not be there.
ENGINES = {
    "trie": r"augtrie::user::User",
    "plain": r"augtrie_bench::plain::Worker<(?:'_, )?augtrie_bench::plain::orders::Least>",
    "plain, SeqCst": r"augtrie_bench::plain::Worker<(?:'_, )?augtrie_bench::plain::orders::SeqCst>",
    "mutex": r"&std::[\w:]*::Mutex<augtrie_bench::sums::Sums>",
    "rwlock": r"&std::[\w:]*::RwLock<augtrie_bench::sums::Sums>",
    "btree": r"&std::[\w:]*::RwLock<alloc::[\w:]*::BTreeMap<u32, u32>>",
    "copies": r"&augtrie_bench::copies::Copies",
}
if not glob.glob("/usr/share/cargo/registry/arc-swap-*"):
    del ENGINES["copies"]

WORKLOADS = ["updates", "tenth", "queries", "batches"]

# How the benchmark puts threads aside, and the engines that it measures then.
ASIDE = {"suspended": "one of 4 threads suspended", "crowded": "16 threads on 4 processors"}
ENGINES_ASIDE = [name for name in ENGINES if name in ("trie", "mutex", "rwlock", "copies")]

# What the crowd prints.
CROWD = re.compile(r"ok: \d{4,} operations, \d{3,} looks\n")

# What the examples print.
PRINTED = {
    "timers": ["due before 200: 180", "fired 90, next at 102", "left 3596, set 4096"],
    "order_book": ["each of 500 snapshots agreed with itself and with all changes up to it", "160 prices, 6400 in all, 1600 from 1950 up to the middle",
                   "best bid 1999, best offer 2001"],
    "leaderboard": ["top ten: 0 has 387, 1 has 148, 2 has 126, 11 has 88, 3 has 80, 6 has 77, 7 has 74, 5 has 72, 4 has 71, 10 has 62",
                    "player 500 is at rank 393 of 984, the next player is 501",
                    "half of the players have 9 or more, one in a hundred has 62",
                    "12007 points; club 0 leads with 2595"],
}


def said_by(*words, status=0, **how):
    """What a command prints. It must end with the status."""
    how.setdefault("timeout", 600)
    ran = subprocess.run(words, stdin=subprocess.DEVNULL, stdout=subprocess.PIPE, stderr=subprocess.STDOUT, text=True, errors="replace", **how)
    assert ran.returncode == status, f"{words[0]} ended with {ran.returncode}\n{ran.stdout}"
    return ran.stdout


def runs(tool, *words):
    """Whether a tool is there and runs."""
    return bool(shutil.which(tool)) and subprocess.run([tool, *words, "--version"], stdin=subprocess.DEVNULL, capture_output=True).returncode == 0


@functools.lru_cache
def compiler_for(sanitizer):
    """A C compiler that has what a sanitizer needs, or None."""
    with tempfile.TemporaryDirectory() as folder:
        program = os.path.join(folder, "nothing")
        for compiler in filter(runs, (CC, "gcc", "clang")):
            words = [compiler, *SANITIZERS[sanitizer], "-x", "c", "-", "-o", program]
            built = subprocess.run(words, input="int main(void) { return 0; }", text=True, capture_output=True)
            if built.returncode == 0 and subprocess.run([program], capture_output=True).returncode == 0:
                return compiler
    return None


MISSING = {tool for tool in ("ar", "objcopy", CC, CXX, "cargo", "cmake", "pkg-config", "valgrind") if not runs(tool)}
if not os.path.exists(os.path.join(sysconfig.get_path("include"), "Python.h")) or not runs(*PIP[:3]):
    MISSING.add(PYTHON)
MISSING |= {f"{name} sanitizer" for name in SANITIZERS if not compiler_for(name)}
for tool in sorted(MISSING):
    print(f"no {tool}: its tests are left out")


def with_tool(tool):
    """Leaves a test out if a tool is missing."""
    return lambda test: None if tool in MISSING else test


def exports():
    """The calls that are proved."""
    found = set()
    for name in os.listdir(os.path.join(TOP, "crates", "aug_c", "src")):
        found |= set(re.findall(r'extern "C" fn (\w+)', read("crates", "aug_c", "src", name)))
    assert len(found) >= 20
    return found


def calls():
    """All calls of the library: those that are proved, and those that the C beside them has."""
    beside = set(re.findall(r"^(?:int64_t |const char \*)(\w+)\([^;\n]*\{", read("bindings", "c", "augtrie.c"), re.M))
    assert len(beside) >= 28
    return exports() | beside


def shown():
    """The calls that the header shows."""
    return set(re.findall(r"^(?:AUG_NODISCARD )?(?:int64_t |const char \*)(\w+)\(", read("bindings", "c", "augtrie.h"), re.M))


def defined(library, *words):
    """The names that a library defines for others."""
    return set(re.findall(r"^\w+ [A-Z] (\w+)$", said_by("nm", "--defined-only", *words, library), re.M))


# A path or the name of a file, as pages have them, and not behind a variable or another folder.
NAMED = re.compile(r"(?<![\w$./)*-])((?:[\w.-]+/)+[\w.-]*|[\w-]+\.(?:a|c|csv|h|md|py|rs|rt|so|supp|toml))(?![\w/])")


def foreign(page, files):
    """The files and folders that a page names and that are none of these, but for the headers of the C library."""
    found = NAMED.findall(re.sub(r"^ *#include <.*", "", page, flags=re.M))
    return [name for name in found if not any(f"/{file}".endswith("/" + name.rstrip("/.")) for file in files)]


def extension():
    """The sources of the Python module."""
    folder = os.path.join(BINDINGS, "python", "native")
    return "".join(read(folder, name) for name in sorted(os.listdir(folder)))


def test_names_of_the_header():
    hidden = set(re.findall(r"^int64_t (\w+)\(.*;$", read("bindings", "c", "augtrie.c"), re.M))
    assert shown() | hidden == calls()
    assert not shown() & hidden and hidden < exports()


def test_names_in_rust():
    # The crate has those that wait, and not those for who calls again.
    waits = {name for name in shown() if not name.startswith(("aug_try_", "aug_wait_"))}
    assert set(re.findall(r"pub (?:safe )?fn (aug_\w+)\(", read("bindings", "rust", "src", "ffi.rs"))) == waits


def test_names_in_python():
    types = set(re.findall(r"^} (aug_\w+);", read("bindings", "c", "augtrie.h"), re.M))
    used = set(re.findall(r"\baug_\w+\b", extension())) - types
    # What may wait is tried instead, since no thread may wait that has the interpreter's lock, by which the threads that wait are counted too.
    tries, says = ({name for name in shown() if word in name} for word in ("_try_", "_wait_"))
    assert shown() - says - tries - {name.replace("_try_", "_") for name in tries} <= used <= shown() - says


def test_names_and_codes_agree():
    want = {int(code) for code in re.findall(r"^pub const \w+: i64 = (-\d+);", read("crates", "aug_c", "src", "codes.rt"), re.M)}
    header = {name: int(code) for name, code in re.findall(r"\b(AUG_\w+) = (-\d+)", read("bindings", "c", "augtrie.h"))}
    assert set(header.values()) == want
    # What is no member is None in Rust and in Python.
    refusals = {name: code for name, code in header.items() if name != "AUG_NONE"}
    assert set(re.findall(r"^    {(AUG_\w+), \"augtrie\.", extension(), re.M)) == set(refusals)
    rust = {int(code) for code in re.findall(r"^ +\(?(-\d+)(?:,| =>) Error::", read("bindings", "rust", "src", "error.rs"), re.M)}
    assert rust == set(refusals.values())


def test_names_of_codes_that_tests_have():
    folder = os.path.join(BINDINGS, "c", "tests")
    tested = set(re.findall(r"\bAUG_\w+", "".join(read(folder, name) for name in os.listdir(folder))))
    tested |= {f"AUG_{code.upper()}" for file in ROWS for code in re.findall(r"^ *[\w#]+\.\w.* = ([a-z]\w+)", read(file), re.M)}
    assert set(re.findall(r"\b(AUG_\w+) = -?\d+", read("bindings", "c", "augtrie.h"))) <= tested


def test_names_of_calls_that_rows_have():
    # Those that are left have no answer of their own.
    played = {call.partition("try_")[2] or call for file in ROWS for call in re.findall(r"^ *[\w#]+\.(\w+)", read(file), re.M)} - {"shows"}
    names = {re.sub("^aug_(try_)?", "", name) for name in shown()} - {"version", "error_text"}
    assert played == {"user" if name == "user_open" else name for name in names} - {"user_close"}


def test_names_and_versions_agree():
    version = ".".join(re.findall(r"^#define AUG_VERSION_\w+ (\d+)$", read("bindings", "c", "augtrie.h"), re.M))
    assert re.fullmatch(r"\d+\.\d+\.\d+", version), version
    assert f'\nversion = "{version}"\n' in read("bindings", "rust", "Cargo.toml")


def test_names_that_a_packed_page_may_not_have():
    page = "`src/` has it, as `docs/using.md` and one.c say:\n#include <stdint.h>\ncc tests/one.c $HOME/augtrie/lib/libaugtrie.a *.whl bindings/c\n"
    assert foreign(page, ["src", "tests/one.c"]) == ["docs/using.md", "bindings/c"]


@with_tool("cargo")
def test_rust_crate_is_checked_and_documented_without_the_library():
    with tempfile.TemporaryDirectory() as folder:
        env = {**os.environ, "AUGTRIE_LIB": "", "PKG_CONFIG": "false", "CARGO_TARGET_DIR": folder}
        words = ["--offline", "--manifest-path", os.path.join(BINDINGS, "rust", "Cargo.toml")]
        # The second time it looks for the library again.
        for call in ["check", "--all-targets"], ["check", "--all-targets"], ["doc"]:
            said = said_by("cargo", *call, *words, env=env)
            assert "libaugtrie.a was not found" in said and "Compiling augtrie" in said, said
        assert "could not find native static library `augtrie`" in said_by("cargo", "build", "--example", "first", *words, env=env, status=101)


HELD = tempfile.TemporaryDirectory(prefix="library-")


@functools.lru_cache
def drawn_rows(*how):
    """A file of rows that are drawn."""
    path = os.path.join(HELD.name, f"drawn{len(how)}.rows")
    said_by(sys.executable, os.path.join(TOP, "tests", "rows", "draw.py"), path, *how)
    return path


def wrong_rows(text):
    """A file of rows with one wrong answer, for the first row of each call and kind of answer: its line, and the file."""
    lines, seen = text.splitlines(), set()
    for at, line in enumerate(lines):
        found = re.fullmatch(r" *[\w#]+\.(\w+)[^=]*?(?: \[[^]]*\])?[\w ]*( = ?[^(]*)?(\(.*\))?", line)
        if line.startswith("#") or not found:
            continue
        call, answer, told = found.groups()
        wrong = []
        if call == "shows" or (answer or "").endswith("]"):
            wrong.append(("list", line[:-1] + " 60007]"))
        else:
            wrong.append((answer, line.replace(answer, " = 60007 ") if answer else f"{line} = 60007"))
        if told:
            wrong.append(("told", line.replace(told, re.sub(r"\w\S*", "60007", told, count=1))))
        for kind, changed in wrong:
            if (call, kind) not in seen:
                seen.add((call, kind))
                yield at + 1, "\n".join([*lines[:at], changed, *lines[at + 1 :]])


@functools.lru_cache
def archives():
    """The archive of each compiler, by the compiler's name, built over the libraries that `rt ci` left, from one proof."""
    rt, folder = toolchain(), HELD.name
    crate = crates_below(rt, TOP)["aug_c"]
    words = crate.words(["--jobs", str(min(os.cpu_count() or 1, 2))], keeps=False)
    checked = os.path.join(folder, "checked")
    said = said_by(rt.rtlib.RATTLE, "check", *words, "-o", checked, cwd=crate.folder, timeout=3000)
    assert said.splitlines()[-1].startswith("logic=proved "), said
    for flag in ("--logic-built", "--jobs"):
        at = words.index(flag)
        del words[at : at + 2]
    words += ["--crate-checked", checked, "--toolchain", f"{rt.KIT}/toolchain"]
    made = {backend: os.path.join(folder, f"{backend}.a") for backend in BACKENDS}
    for backend, archive in made.items():
        said_by(rt.rtlib.RATTLE, "build", *words, "--backend", backend, "-o", archive, cwd=crate.folder)
    return made


class Installed:
    """The library as one compiler builds it."""

    @classmethod
    def setup_class(cls):
        cls.folder = os.path.join(HELD.name, f"by_{cls.backend}")
        os.mkdir(cls.folder)
        words = ["--archive", archives()[cls.backend], cls.folder] if os.environ.get("AFTER_CI") else [cls.folder, cls.backend]
        said_by(os.path.join(TOP, "tools", "install"), *words, timeout=3000)

    def parts(self):
        """What is in the library beside augtrie.c, with all its names."""
        proved = archives()[self.backend] if os.environ.get("AFTER_CI") else os.path.join(TOP, "crates", "aug_c", "out", "libaug_c.a")
        return [proved, os.path.join(toolchain().KIT, "c", "liblibc_c.a")]

    def compiled(self, *source, words=(CC, "-std=c11"), library=()):
        program = os.path.join(self.folder, os.path.basename(source[-1]).partition(".")[0])
        include, library = os.path.join(self.folder, "include"), library or [os.path.join(self.folder, "lib", "libaugtrie.a")]
        words = [words[0], "-O2", *WARNINGS, f"-I{include}", *words[1:]]
        said_by(*words, os.path.join(BINDINGS, *source), "-x", "none", *library, "-lpthread", "-o", program)
        return program

    def refused(self, *words):
        """The test of refusals, which has calls in the place of others within the library."""
        library = [os.path.join(BINDINGS, "c", "augtrie.c"), *self.parts()]
        return self.compiled("c", "tests", "refused.c", words=[CC, "-std=c11", REFUSED, *words], library=library)

    def test_c_rows(self):
        said = said_by(self.compiled("c", "tests", "rows.c"), *ROWS, drawn_rows())
        assert int(re.fullmatch(r"ok: (\d+) rows\n", said)[1]) >= LEAST_ROWS["c"]

    def test_c_threads(self):
        assert self.answers_in("threads.c") >= 15000

    def test_c_misuse(self):
        assert self.answers_in("misuse.c") >= 800

    def test_c_each_request_for_memory_refused(self):
        said = said_by(self.refused())
        assert int(re.fullmatch(r"ok: (\d+) refused\n", said)[1]) >= 60

    def test_c_crowd(self):
        assert CROWD.fullmatch(said_by(self.compiled("c", "tests", "crowd.c"), CROWD_SECONDS))

    def answers_in(self, name):
        """How many answers a test in C compares, with what they have to be."""
        return int(re.fullmatch(r"ok: (\d+) answers\n", said_by(self.compiled("c", "tests", name)))[1])

    def test_c_updates_beside_readers(self):
        said = said_by(self.compiled("c", "tests", "readers.c"))
        assert re.fullmatch(r"ok: \d+ answers, \d{3,} updates\n", said), said

    def test_c_turns_of_others(self):
        assert self.answers_in("waits.c") >= 50

    def test_c_first(self):
        assert said_by(self.compiled("c", "examples", "first.c")) == "500 of 1000 are below 500\n"

    def test_c_example_at_the_head_of_the_header(self):
        example = re.findall(r"^ \*   (.*)$", read("bindings", "c", "augtrie.h"), re.M)
        assert len(example) >= 9 and not any(line.startswith("*") for line in example)
        source = os.path.join(self.folder, "head.c")
        with open(source, "w", encoding="utf-8") as file:
            file.write("\n".join(['#include "augtrie.h"', "#include <stdio.h>", "int main(void) {", *example, "}\n"]))
        assert said_by(self.compiled(source)) == "1 of the members are below 9\n"

    def test_c_timers(self):
        assert said_by(self.compiled("c", "examples", "timers.c")).splitlines() == PRINTED["timers"]

    def test_c_answers_have_to_be_looked_at(self):
        include = f"-I{os.path.join(self.folder, 'include')}"
        for call, (answer, status) in itertools.product(("aug_insert(l, 1)", "aug_look_again(l)"), (("int64_t done = ", 0), ("", 1))):
            source = os.path.join(self.folder, "ignored.c")
            with open(source, "w", encoding="utf-8") as file:
                file.write(f'#include "augtrie.h"\nint64_t f(aug_user *l) {{ {answer}{call}; return {"done" if answer else 0}; }}\n')
            said = said_by(CC, "-std=c11", "-O2", *WARNINGS, include, "-c", source, "-o", f"{source}.o", status=status)
            assert ("warn_unused_result" in said) == (status == 1), said

    def test_c_library_defines_what_the_header_does_alone(self):
        archive, shared = (os.path.join(self.folder, "lib", f"libaugtrie.{end}") for end in ("a", "so"))
        assert len(shown()) >= 49
        assert defined(archive, "-g") == defined(shared, "-D") == shown()
        assert re.search(r"SONAME.*\[libaugtrie\.so\.\d+\.\d+\]", said_by("readelf", "-d", shared))

    def test_c_two_libraries_in_one_program(self):
        # The other one has calls of other names, and the same names within.
        archive, other, source = (os.path.join(self.folder, name) for name in ("lib/libaugtrie.a", "other.a", "both.c"))
        said_by("objcopy", *(f"--redefine-sym={name}=other_{name}" for name in shown()), archive, other)
        with open(source, "w", encoding="utf-8") as file:
            file.write('#include "augtrie.h"\n'
                       "int64_t other_aug_open(aug_trie *, uint32_t, uint32_t, uint64_t), other_aug_close(aug_trie *, aug_report *);\n"
                       "int main(void) {\n    aug_trie one = AUG_ZEROED, two = AUG_ZEROED;\n"
                       "    return aug_open(&one, 4, 1, 1 << 20) || other_aug_open(&two, 4, 1, 1 << 20) || aug_close(&one, NULL) || other_aug_close(&two, NULL);\n}\n")
        said_by(self.compiled(source, library=[archive, other]))


class Module:
    """The Python module, as pip installs it from its sources."""

    @classmethod
    def setup_class(cls):
        super().setup_class()
        cls.site = os.path.join(cls.folder, "site")
        env = {**os.environ, "AUGTRIE_LIB": os.path.join(cls.folder, "lib")}
        said_by(*PIP, "--no-build-isolation", "--target", cls.site, os.path.join(BINDINGS, "python"), env=env)

    def python(self, *words):
        return said_by(sys.executable, "-W", "error", *words, env={**os.environ, "PYTHONPATH": self.site, "PYTHONDONTWRITEBYTECODE": "1"})

    def test_python_module(self):
        said = self.python(os.path.join(BINDINGS, "python", "test_augtrie.py"))
        passed = re.fullmatch(r"(\d+) passed, 0 failed", said.splitlines()[-1])
        assert int(passed[1]) >= LEAST_PYTHON

    def test_python_rows(self):
        said = self.python(os.path.join(BINDINGS, "python", "test_rows.py"), drawn_rows("short"))
        assert int(re.fullmatch(r"ok: (\d+) rows, \d+ passed over\n", said)[1]) >= LEAST_ROWS["python"]

    def test_python_first(self):
        assert self.python(os.path.join(BINDINGS, "python", "first.py")) == "500 of 1000 are below 500\n7 to 9 weigh 49\n"

    def test_python_leaderboard(self):
        assert self.python(os.path.join(BINDINGS, "python", "leaderboard.py")).splitlines() == PRINTED["leaderboard"]

    @with_tool("pkg-config")
    def test_python_by_pkg_config(self):
        env = {**os.environ, "AUGTRIE_LIB": "", "PKG_CONFIG_PATH": os.path.join(self.folder, "lib", "pkgconfig")}
        wheel = said_by(sys.executable, os.path.join(BINDINGS, "python", "backend", "augtrie_wheel.py"), self.folder, env=env).strip()
        assert os.path.exists(os.path.join(self.folder, wheel)), wheel


class Plus:
    """The header as C++ sees it."""

    def test_c_plus_plus(self):
        said = said_by(self.compiled("c", "tests", "cplusplus.cpp", words=[CXX, "-std=c++17"]))
        assert int(re.fullmatch(r"ok: (\d+) answers\n", said)[1]) >= 15

    def test_c_plus_plus_timers(self):
        program = self.compiled("c", "examples", "timers.c", words=[CXX, "-std=c++17", "-x", "c++"])
        assert said_by(program).splitlines() == PRINTED["timers"]

    def test_c_other_compilers_have_no_warning(self):
        for compiler in filter(runs, ("gcc", "clang", "g++", "clang++")):
            words = ["-std=c++17", "-x", "c++"] if "+" in compiler else ["-std=c11"]
            for source in ("examples/timers.c",) if "+" in compiler else ("augtrie.c", "examples/timers.c"):
                path = os.path.join(BINDINGS, "c", source)
                include = f"-I{os.path.join(self.folder, 'include')}"
                said_by(compiler, "-O2", *WARNINGS, include, *words, "-c", path, "-o", os.path.join(self.folder, "other.o"))


class Refuses:
    """What the player of rows says of files with a wrong answer."""

    def test_c_rows_with_a_wrong_answer_are_refused(self):
        program, path, count = self.compiled("c", "tests", "rows.c"), os.path.join(self.folder, "wrong.rows"), 0
        for file in ROWS:
            for line, text in wrong_rows(read(file)):
                with open(path, "w", encoding="utf-8") as wrong:
                    wrong.write(text)
                assert said_by(program, path, status=1).startswith(f"{path}:{line} "), (file, line)
                count += 1
        assert count >= 300

    def test_c_rows_that_say_nothing_are_refused(self):
        program, path = self.compiled("c", "tests", "rows.c"), os.path.join(self.folder, "none.rows")
        for text in "", "# a.size = 1\n", "a.sizes = 1\n", "a.size 1 = 1\n", "repeat 0 {\n    a.size = 1\n}\n", "repeat 2 {\na.size = closed\n", "a.size = clos\n":
            with open(path, "w", encoding="utf-8") as empty:
                empty.write(text)
            said_by(program, path, status=1)
        said_by(program, status=2)


class Checked:
    """What valgrind says of the C programs."""

    def test_c_under_valgrind(self):
        rows, *programs = [self.compiled("c", "tests", f"{name}.c", words=[CC, "-std=c11", "-g"]) for name in ("rows", "threads", "misuse", "waits")]
        for program, *words in [self.refused("-g")], [rows, *ROWS], *([program] for program in programs):
            said_by("valgrind", "-q", "--error-exitcode=9", "--leak-check=full", program, *words)


class Sanitized:
    """What sanitizers say of the C that has no proof, while threads work. Of what the proved object does, they see calls of the C library alone."""

    def sanitized(self, sanitizer, name, *words, faults=(), library_faults=(), status=0):
        """What a program prints that is built for a sanitizer with augtrie.c, over a shared object of the rest, which the reports leave out by its name."""
        program = os.path.join(self.folder, f"{name}_{sanitizer}")
        build = [compiler_for(sanitizer), "-std=c11", "-g", *WARNINGS, *SANITIZERS[sanitizer], f"-I{os.path.join(self.folder, 'include')}"]
        said_by(*build, *library_faults, "-c", os.path.join(BINDINGS, "c", "augtrie.c"), "-o", f"{program}.o")
        rest = os.path.join(self.folder, "rest")
        os.makedirs(rest, exist_ok=True)
        said_by(CC, "-shared", "-Wl,--whole-archive", *self.parts(), "-Wl,--no-whole-archive", "-o", os.path.join(rest, "libaugtrie.so"))
        libraries = [f"-L{rest}", f"-Wl,-rpath,{rest}", "-laugtrie", "-lpthread"]
        said_by(*build, *faults, os.path.join(BINDINGS, "c", "tests", f"{name}.c"), f"{program}.o", *libraries, "-o", program)
        return said_by(program, *words, status=status, env={**os.environ, **REPORTS})

    def check_sanitized(self, sanitizer):
        assert CROWD.fullmatch(self.sanitized(sanitizer, "crowd", CROWD_SECONDS))
        assert re.fullmatch(r"ok: \d+ answers\n", self.sanitized(sanitizer, "threads"))

    @with_tool("thread sanitizer")
    def test_c_has_no_race(self):
        self.check_sanitized("thread")

    @with_tool("address sanitizer")
    def test_c_stays_in_its_memory_and_gives_it_back(self):
        self.check_sanitized("address")
        for name in "waits", "misuse":
            assert re.fullmatch(r"ok: \d+ answers\n", self.sanitized("address", name))
        assert re.fullmatch(r"ok: \d+ rows\n", self.sanitized("address", "rows", *ROWS))

    @with_tool("thread sanitizer")
    def test_c_race_is_found(self):
        # The lock is neither taken nor let go: for a lock of its kind, this call does nothing.
        faults = [f"-Dpthread_mutex_{call}=pthread_mutex_consistent" for call in ("lock", "unlock")]
        said = self.sanitized("thread", "crowd", "0", library_faults=faults, status=66)
        assert re.search(r"WARNING: ThreadSanitizer: data race(?s:.)*?#0 \w+ \S*augtrie\.c:", said), said

    @with_tool("address sanitizer")
    def test_c_overrun_is_found(self):
        # The library, which has no checks, writes more weights than there are places, and the test reads the second of them.
        said = self.sanitized("address", "crowd", "0", faults=["-DPLACES=1"], status=66)
        assert re.search(r"AddressSanitizer: heap-buffer-overflow(?s:.)*?#0 \w+ in check \S*crowd\.c:", said), said

    @with_tool("address sanitizer")
    def test_c_leak_is_found(self):
        # The users that are left when a trie is closed are not freed: this call leaves them as they are.
        said = self.sanitized("address", "crowd", "0", library_faults=["-Daug_user_free=aug_try_look_done"], status=66)
        assert "LeakSanitizer: detected memory leaks" in said


class Crate:
    """The Rust crate."""

    def cargo(self, *words, quiet=("-q",), found=None, more=()):
        env = {**os.environ, **dict(more), **(found or {"AUGTRIE_LIB": os.path.join(self.folder, "lib")}), "CARGO_TARGET_DIR": os.path.join(self.folder, "target")}
        return said_by("cargo", words[0], "--offline", *quiet, "--manifest-path", os.path.join(BINDINGS, "rust", "Cargo.toml"), *words[1:], env=env)

    def test_rust_crate(self):
        counts = [int(count) for count in re.findall(r"test result: ok\. (\d+) passed; 0 failed", self.cargo("test"))]
        assert sum(counts) >= LEAST_RUST

    def test_rust_rows(self):
        said = self.cargo("test", "--test", "rows", "each_row_is_answered", "--", "--nocapture", more={"ROWS": drawn_rows()})
        assert int(re.search(r"^ok: (\d+) rows, \d+ passed over$", said, re.M)[1]) >= LEAST_ROWS["rust"]

    def test_rust_first(self):
        assert re.fullmatch(r"500 of \d+ are below 500\n1000 at the end\n", self.cargo("run", "--example", "first"))

    def test_rust_order_book(self):
        assert self.cargo("run", "--example", "order_book").splitlines() == PRINTED["order_book"]

    def test_rust_crate_is_built_again_with_its_archive(self):
        self.cargo("build")
        assert "Compiling" not in self.cargo("build", quiet=())
        os.utime(os.path.join(self.folder, "lib", "libaugtrie.a"))
        assert "Compiling" in self.cargo("build", quiet=())

    @with_tool("pkg-config")
    def test_rust_crate_by_pkg_config(self):
        found = {"AUGTRIE_LIB": "", "PKG_CONFIG_PATH": os.path.join(self.folder, "lib", "pkgconfig")}
        assert self.cargo("run", "--example", "order_book", found=found).splitlines() == PRINTED["order_book"]


class Packed:
    """What tools/package makes, in a folder elsewhere, with no path to the toolchain."""

    @classmethod
    def setup_class(cls):
        super().setup_class()
        cls.packs = os.path.join(cls.folder, "packs")
        said_by(os.path.join(TOP, "tools", "package"), cls.folder, cls.packs)
        for name in os.listdir(cls.packs):
            if name.endswith(("gz", "crate")):
                with tarfile.open(os.path.join(cls.packs, name)) as packed:
                    packed.extractall(os.path.join(cls.folder, name.rpartition(".")[2]))
        cls.c, cls.crate = (glob.glob(os.path.join(cls.folder, end, "augtrie-*"))[0] for end in ("gz", "crate"))
        cls.wheel, = glob.glob(os.path.join(cls.packs, "*.whl"))

    def elsewhere(self, *words, **more):
        """What a command prints that knows neither the toolchain nor other settings of this process."""
        path = os.pathsep.join(folder for folder in os.environ["PATH"].split(os.pathsep) if not os.path.exists(os.path.join(folder, "rt")))
        assert not shutil.which("rt", path=path)
        return said_by(shutil.which(words[0], path=path), *words[1:], cwd=self.folder, env={"PATH": path, "HOME": os.path.expanduser("~"), **more})

    def test_packed_folders_differ(self):
        own, crates = (os.listdir(os.path.dirname(folder)) for folder in (self.c, self.crate))
        assert len(own) == len(crates) == 1
        assert own != crates

    def pages(self):
        """What people read of each package, with the names of the files in it."""
        with zipfile.ZipFile(self.wheel) as wheel:
            about, = (name for name in wheel.namelist() if name.endswith("/METADATA"))
            yield wheel.read(about).decode().partition("\n\n")[2], wheel.namelist()
        for folder, names in (self.c, ["README.md", "augtrie.supp", "include/augtrie.h"]), (self.crate, ["README.md"]):
            files = [os.path.relpath(path, folder) for path in glob.glob(os.path.join(folder, "**"), recursive=True)]
            for name in names:
                yield read(folder, name), files

    def test_packed_pages_name_no_file_that_is_not_packed(self):
        for page, files in self.pages():
            assert page and foreign(page, files) == []
        assert "suppressions=augtrie.supp" in read(self.c, "README.md")

    def test_packed_libraries_define_what_the_header_does_alone(self):
        for folder in os.path.join(self.c, "lib"), os.path.join(self.crate, "native"):
            assert defined(os.path.join(folder, "libaugtrie.a"), "-g") == shown()
        assert defined(os.path.join(self.c, "lib", "libaugtrie.so"), "-D") == shown()
        with zipfile.ZipFile(self.wheel) as wheel:
            module = wheel.extract("augtrie/_augtrie.abi3.so", os.path.join(self.folder, "of-wheel"))
        assert defined(module, "-D") == {"PyInit__augtrie"}

    @with_tool("thread sanitizer")
    def test_packed_list_for_a_thread_sanitizer(self):
        library, program = os.path.join(self.c, "lib"), os.path.join(self.folder, "packed-crowd")
        built = [compiler_for("thread"), "-std=c11", "-g", *SANITIZERS["thread"], f"-I{self.c}/include", os.path.join(BINDINGS, "c", "tests", "crowd.c")]
        self.elsewhere(*built, f"-L{library}", "-laugtrie", "-lpthread", "-o", program)
        options = f"halt_on_error=1:exitcode=66:suppressions={self.c}/augtrie.supp"
        assert CROWD.fullmatch(self.elsewhere(program, CROWD_SECONDS, LD_LIBRARY_PATH=library, TSAN_OPTIONS=options))

    @with_tool("pkg-config")
    def test_packed_c(self):
        timers, library = os.path.join(self.c, "examples", "timers.c"), os.path.join(self.c, "lib")
        flags = self.elsewhere("pkg-config", "--cflags", "--libs", "augtrie", PKG_CONFIG_PATH=os.path.join(library, "pkgconfig")).split()
        self.elsewhere(CC, "-O2", timers, *flags, "-lpthread", "-o", "shared")
        said = self.elsewhere(os.path.join(self.folder, "shared"), LD_LIBRARY_PATH=library)
        assert said.splitlines() == PRINTED["timers"]

    @with_tool("cmake")
    def test_packed_cmake(self):
        build = os.path.join(self.folder, "cmake")
        os.makedirs(build)
        with open(os.path.join(build, "CMakeLists.txt"), "w", encoding="utf-8") as file:
            file.write("cmake_minimum_required(VERSION 3.12)\nproject(timers C)\nfind_package(Threads REQUIRED)\n"
                       "find_package(augtrie 0.1 REQUIRED)\nfind_package(augtrie 1.0 QUIET)\n"
                       "if(augtrie_FOUND)\n  message(FATAL_ERROR \"1.0 is another library\")\nendif()\n")
            for kind, name in ("by_archive", "augtrie"), ("by_object", "shared"):
                file.write(f"add_executable({kind} {self.c}/examples/timers.c)\ntarget_link_libraries({kind} augtrie::{name} Threads::Threads)\n")
        self.elsewhere("cmake", "-S", build, "-B", build, f"-DCMAKE_PREFIX_PATH={self.c}")
        self.elsewhere("cmake", "--build", build)
        for kind in ("by_archive", "by_object"):
            assert self.elsewhere(os.path.join(build, kind)).splitlines() == PRINTED["timers"]

    def test_packed_crate(self):
        target = os.path.join(self.folder, "packed-target")
        words = ["cargo", "run", "--offline", "-q", "--example", "order_book", "--manifest-path", os.path.join(self.crate, "Cargo.toml")]
        assert self.elsewhere(*words, CARGO_TARGET_DIR=target).splitlines() == PRINTED["order_book"]

    def test_packed_wheel(self):
        site = os.path.join(self.folder, "packed-site")
        self.elsewhere(*PIP, "--target", site, self.wheel)
        said = self.elsewhere(sys.executable, os.path.join(self.c, "examples", "leaderboard.py"), PYTHONPATH=site)
        assert said.splitlines() == PRINTED["leaderboard"]


def table(lines, first):
    """The rows of the table whose head begins with a cell, by their first cells: each has its cells by the names of the columns."""
    at = next(number for number, line in enumerate(lines) if line.startswith(f"| {first} |"))
    own = itertools.takewhile(lambda line: line.startswith("|"), lines[at:])
    head, _, *rows = [[cell.strip() for cell in line.strip("|").split("|")] for line in own]
    found = {row[0]: dict(zip(head, row)) for row in rows}
    assert len(found) == len(rows) and {len(row) for row in rows} == {len(head)}
    return found


class Bench:
    """The benchmark, which works with what callers in Rust have."""

    def script(self, name, *words, status=0):
        env = {**os.environ, "AUGTRIE_LIB": os.path.join(self.folder, "lib"), "CARGO_TARGET_DIR": os.path.join(self.folder, "bench")}
        return said_by(os.path.join(TOP, "bench", name), *words, status=status, env=env)

    def verdicts(self, *words, **how):
        """The engines that were compared with the trie, and the answers in which they agreed, or None."""
        said = self.script("run", "--check", *words, **how)
        found = re.findall(r"^(\w+): trie and (.+) (?:agree in (\d+)|DIFFER after \d+) answers$", said, re.M)
        assert [it[:2] for it in found] == [(workload, engine) for workload in WORKLOADS for engine in list(ENGINES)[1:]], said
        return [int(it[2]) if it[2] else None for it in found]

    def test_bench_engines_agree(self):
        # An odd key is no member at first.
        for words in [], ["--without", "1"]:
            assert min(self.verdicts(*words)) >= LEAST_ANSWERS

    def test_bench_finds_that_a_key_is_missing(self):
        assert set(self.verdicts("--without", "0", status=1)) == {None}

    def test_bench_finds_an_engine_under_the_name_of_another(self):
        for one, other in (2, 3), (0, 1):
            names = [list(ENGINES)[number] for number in (one, other)]
            said = self.script("run", "--rename", str(one), str(other), "--passes", "1", "--slice", "1", "--workload", "queries", status=1)
            assert f"bench: {names[0]} was run under the name of {names[1]}\n" in said

    def test_bench_measures_each_engine(self):
        said = self.script("run", "--passes", "1", "--slice", "2", "--bytes", str(3 << 23), "--into", os.path.join(self.folder, "measured"))
        with open(os.path.join(self.folder, "measured", "throughput.md"), encoding="utf-8") as file:
            lines = file.read().splitlines()
        assert "\n".join(lines) in said
        assert any(line.endswith(f" tables of at most {3 << 23} bytes") for line in lines)
        seats = table(lines, "Engine")
        assert list(seats) == list(ENGINES)
        for name, seat in ENGINES.items():
            assert re.search(f"^`{seat}`$", seats[name]["What its threads work with"])
        rates, ratios = table(lines, "Million operations a second"), table(lines, "The trie's throughput as a part of")
        processors = len(os.sched_getaffinity(0))
        cases = [f"{workload}, {count} thread{'s' * (count > 1)}" for workload in WORKLOADS for count in (1, 2, 4) if count <= processors]
        assert (list(rates), list(ratios)) == (cases, cases)
        for case in cases:
            self.check_case(rates[case], ratios[case])
        self.check_picture(os.path.join(self.folder, "measured", "throughput.svg"), len(cases) // len(WORKLOADS))
        if processors >= 4:
            self.check_times(table(lines, "Microseconds of a call"), ASIDE.values())

    def check_times(self, rows, cases):
        """Each engine has a row, whose quantiles rise. Of one pass, each median is the number itself."""
        assert list(rows) == [f"{case}: {name}" for case in cases for name in ENGINES_ASIDE]
        for row in rows.values():
            rate, *times = [float(cell.partition(" ")[0]) for cell in list(row.values())[1:-2]]
            assert rate > 0 and len(times) == 6 and 0 < times[0], row
            assert times == sorted(times), row

    def test_bench_suspends_threads(self):
        if len(os.sched_getaffinity(0)) < 4:
            return
        # A turn of half a second has nine suspensions of 20 ms, each of which falls into a call, or between two of them, and then its time is nobody's.
        # Beside other work the thread may be waiting for a processor whenever its turn to be suspended comes, so a run is tried three times.
        for attempt in range(3):
            folder = os.path.join(self.folder, f"suspended{attempt}")
            said = self.script("run", "--passes", "1", "--slice", "50", "--workload", "suspended", "--into", folder)
            rows = table(said.splitlines(), "Microseconds of a call")
            self.check_times(rows, [ASIDE["suspended"]])
            if all(int(row["calls left out"]) >= 2 and 0.04 <= float(row["suspended, s"]) < 1 for row in rows.values()):
                return
        raise AssertionError(rows)

    def check_case(self, rates, ratios):
        """Holds the numbers of a case to one another. Of one pass, each median is the number itself."""
        number = lambda text: float(text.partition(" ")[0])
        rate = {name: number(rates[name]) for name in ENGINES}
        assert all(0 < it < 1000 for it in rate.values()), rates
        for name in list(ENGINES)[1:]:
            assert abs(number(ratios[name]) / (rate["trie"] / rate[name]) - 1) <= 0.02, name
        best = max(list(ENGINES)[3:], key=lambda name: rate[name])
        best_ratio = re.fullmatch(r"(\S+) \(.*\) of (\w+)", ratios["the best lock's"])
        assert rate[best] / rate[best_ratio[2]] <= 1.01
        assert number(ratios[best_ratio[2]]) == float(best_ratio[1])

    def check_picture(self, path, points):
        """There is a panel a workload, and in it a line an engine, through as many points as there are cases."""
        name = "{http://www.w3.org/2000/svg}"
        panels = xml.etree.ElementTree.parse(path).getroot().findall(f"{name}g")
        assert len(panels) == len(WORKLOADS)
        for panel in panels:
            lines = [it.get("d") for it in panel.findall(f"{name}path") if it.get("class").startswith("line ")]
            assert len(lines) == len(ENGINES)
            assert {line.count("L") + 1 for line in lines} == {points}


class Counted:
    """The instructions of calls."""

    def test_bench_counts_instructions(self):
        lines = self.script("counts", "size", "rank").splitlines()
        counts = table(lines, "Instructions of a call")
        assert list(counts) == ["the library through C", "plain Rust, bounds checks", "plain Rust, no bounds checks"]
        for row in counts.values():
            # A rank goes down 16 levels, and a size none.
            assert 0 < int(row["`size`"]) < int(row["`rank`"]) - 16 * 5 < 2000, counts


# The parts, each with the tools that it needs beside those of the first, and the builds that it is for: what needs one build alone has LLVM's.
PARTS = [
    (["ar", "objcopy", CC], Installed, BACKENDS),
    ([], Refuses, ["llvm"]),
    (["valgrind"], Checked, BACKENDS),
    ([], Sanitized, ["llvm"]),
    ([CXX], Plus, BACKENDS),
    ([PYTHON], Module, BACKENDS),
    (["cargo"], Crate, BACKENDS),
    (["cargo", PYTHON], Packed, ["llvm"]),
    (["cargo"], Bench, ["llvm"]),
    (["cargo", "valgrind"], Counted, ["llvm"]),
]

for backend in BACKENDS if not MISSING & set(PARTS[0][0]) else []:
    # A part is set up after those in front of it.
    parts = [part for tools, part, backends in reversed(PARTS) if backend in backends and not MISSING & set(tools)]
    globals()[f"TestBy_{backend}"] = type(f"TestBy_{backend}", tuple(parts), {"backend": backend})
