"""bench/run builds the benchmark and runs it, and bench/counts counts instructions."""

import os
import shutil
import subprocess
import xml.etree.ElementTree

from common import SECONDS, TOP
from scripts import CopiedScripts

# Stands in for cargo: it notes its words, and builds a program that shows its words; or with --scaling says what the file `measured` does, and ends
# as the file `ends` does.
CARGO = r"""#!/bin/bash
echo "$AUGTRIE_LIB: $*" >>"$ROOM/called"
while (($#)); do if [[ $1 == --target-dir ]]; then target=$2; fi; shift; done
mkdir -p "$target/release"
cat >"$target/release/augtrie_bench" <<'PROGRAM'
#!/bin/bash
if [[ $* != *--scaling ]]; then exec echo "$*"; fi
echo "$*" >"$ROOM/asked"
cat "$ROOM/measured"
exit "$(cat "$ROOM/ends")"
PROGRAM
chmod +x "$target/release/augtrie_bench"
"""

# Stands in for the C compiler: it makes the file behind -o.
COMPILER = r"""#!/bin/bash
while (($#)); do if [[ $1 == -o ]]; then : >"$2"; fi; shift; done
"""

# Stands in for valgrind: the program executes 1,000 instructions, and for each call as many as the length of the operation's name. All answer 5,
# but for the form that the file `odd` names.
VALGRIND = r"""#!/bin/bash
all=1000
if [[ ${@: -2:1} != none ]]; then all=$((1000 + ${@: -1} * $(echo -n "${@: -2:1}" | wc -c))); fi
echo "==1== Collected : $all" >&2
if [[ " $* " == *" $(cat "$ROOM/odd") "* ]]; then echo 6; else echo 5; fi
"""

ENGINES = ["trie", "plain", "plain, SeqCst", "mutex", "rwlock", "btree", "copies"]


def table(workloads):
    """What bench/run writes of the rates of each engine, by workloads and numbers of threads. The quartiles lie a tenth beside the medians."""
    lines = ["# Throughput", "", "| Million operations a second | " + " | ".join(ENGINES) + " |", "|---" * 8 + "|"]
    for workload, by_threads in workloads.items():
        for threads, rates in by_threads.items():
            cells = [f"{workload}, {threads} thread{'s' * (threads > 1)}", *(f"{it} ({it * 0.9} to {it * 1.1})" for it in rates)]
            lines.append(f"| {' | '.join(cells)} |")
    return "\n".join(lines + ["", "| The trie's throughput as a part of | plain |", "|---|---|", "| tenth, 1 thread | 7 (7 to 7) |", ""])


class TestPicture(CopiedScripts):
    copied = ["bench/picture"]

    def panels(self, workloads):
        """The panels of a picture: their elements by their classes, in their order."""
        self.write("table.md", table(workloads))
        out, err, status = self.run_script("bench/picture", "table.md")
        assert (err, status) == ("", 0)
        found = []
        for panel in xml.etree.ElementTree.fromstring(out).findall("{*}g"):
            found.append({})
            for it in panel:
                found[-1].setdefault(it.get("class").split()[0], []).append(it)
        assert len(found) == len(workloads)
        return found

    def test_names_each_workload_and_what_is_better(self):
        panels = self.panels({"updates": {1: [1] * 7}, "tenth": {1: [2] * 7}, "queries": {1: [3] * 7}})
        assert [it["title"][0].text for it in panels] == ["updates", "tenth", "queries"]
        for panel in panels:
            said = [it.text for it in panel["quiet"]]
            assert "million operations a second, more is better; logarithmic" in said and "threads" in said, said

    def test_names_each_engine_beside_the_end_of_its_line(self):
        rates = {1: [5, 5, 5, 5, 5, 5, 5], 2: [1, 8, 64, 2, 512, 30, 0.05]}
        (panel,) = self.panels({"tenth": rates})
        assert [it.text for it in panel["name"]] == ENGINES
        lowest_first = sorted(ENGINES, key=lambda name: rates[2][ENGINES.index(name)])
        assert sorted(ENGINES, key=lambda name: -float(panel["name"][ENGINES.index(name)].get("y"))) == lowest_first
        lines = {it.get("class").split()[1]: it.get("d")[1:].split("L") for it in panel["line"]}
        for name, lead in zip(panel["name"], panel["lead"]):
            (x, y), (far, at) = (map(float, end.split()) for end in lead.get("d")[1:].split("L"))
            line_x, line_y = map(float, lines[name.get("class").split()[1]][-1].split())
            assert line_x < x < far < float(name.get("x")), name.text
            assert (line_y, abs(float(name.get("y")) - at - 4) < 0.11) == (y, True), name.text

    def test_names_do_not_overlap(self):
        at_the_top, at_the_bottom = [9.9] * 6 + [0.1], [0.1] * 6 + [9.9]
        for rates in [1] * 7, [1, 1.01, 1.02, 0.99, 0.98, 1, 1], [1, 1, 1, 1.3, 1.3, 1.3, 1.3], at_the_top, at_the_bottom:
            (panel,) = self.panels({"tenth": {1: [3] * 7, 4: rates}})
            heights = sorted(float(it.get("y")) for it in panel["name"])
            assert min(high - low for low, high in zip(heights, heights[1:])) > 13.8, heights
            axis = [float(it.get("d")[1:].partition("H")[0].split()[1]) for it in panel["grid"]]
            assert min(axis) <= heights[0] and heights[-1] <= max(axis) + 4.1, (heights, axis)

    def test_axis_is_logarithmic(self):
        rates = [0.01, 0.1, 1, 10, 100, 20, 200]
        (panel,) = self.panels({"tenth": {1: rates}})
        # Lines are drawn from the last engine to the first.
        height = {rate: float(it.get("cy")) for rate, it in zip(reversed(rates), panel["dot"])}
        steps = [height[low] - height[10 * low] for low in (0.01, 0.1, 1, 10, 20)]
        assert max(steps) - min(steps) < 0.3 and steps[0] > 20, steps
        for tick, line in zip(panel["quiet"][1:], panel["grid"]):
            if float(tick.text) in height:
                assert abs(float(line.get("d").partition("H")[0].split()[1]) - height[float(tick.text)]) < 0.2, tick.text

    def test_bars_go_from_quartile_to_quartile(self):
        (panel,) = self.panels({"tenth": {1: [1, 10, 1, 1, 1, 1, 1], 2: [1] * 7}})
        for dot, bar in zip(panel["dot"], panel["bar"]):
            low, high = map(float, bar.get("d").partition(" ")[2].split("V"))
            assert high < float(dot.get("cy")) < low

    def test_file_without_rates(self):
        self.write("table.md", "| Microseconds of a call | half |\n")
        out, err, status = self.run_script("bench/picture", "table.md")
        assert (out, err, status) == ("", "picture: there is no table of million operations a second\n", 1)


class TestBench(CopiedScripts):
    copied = ["bench/build", "bench/run", "bench/counts", "bench/scaling", "bench/picture"]

    def setup_method(self):
        super().setup_method()
        for name, text in ("cargo", CARGO), ("cc", COMPILER), ("valgrind", VALGRIND):
            self.write(f"bin/{name}", text, 0o755)
        self.write("tools/install", '#!/bin/bash\nmkdir -p "$1/lib"\necho "installed below ${1#$ROOM/}"\n', 0o755)
        self.write("crates/arc-swap-1/Cargo.toml", "")
        self.write("lib/libaugtrie.a", "")
        self.write("odd", "nothing")
        self.given = {"AUGTRIE_LIB": "lib", "CRATES": f"{self.folder}/crates", "CARGO_TARGET_DIR": f"{self.folder}/target", "CC": "cc"}

    def test_builds_over_a_library_and_runs(self):
        out, err, status = self.run_script("bench/run", "--passes", "3", **self.given)
        assert (out, err, status) == (f"--into {self.folder}/bench/out --passes 3\n", "", 0)
        (built,) = self.read("called").splitlines()
        assert built.startswith(f"{self.folder}/lib: build --release --offline "), built
        assert " --features copies " in built
        assert f'source.installed.directory="{self.folder}/crates"' in built

    def test_installs_the_library_first_if_none_is_named(self):
        _, err, status = self.run_script("bench/run", **{**self.given, "AUGTRIE_LIB": ""})
        assert (err, status) == ("installed below target/installed\n", 0)
        assert self.read("called").startswith(f"{self.folder}/target/installed/lib: build ")

    def test_library_that_is_not_installed(self):
        self.write("tools/install", "#!/bin/bash\nexit 1\n", 0o755)
        out, _, status = self.run_script("bench/run", **{**self.given, "AUGTRIE_LIB": ""})
        assert (out, status, os.path.exists(self.path("called"))) == ("", 1, False)

    def test_leaves_copies_out_without_its_crate(self):
        shutil.rmtree(self.path("crates"))
        _, err, status = self.run_script("bench/run", **self.given)
        assert (err.count("\n"), status) == (1, 0), err
        assert "the engine 'copies' is left out" in err
        assert "--features" not in self.read("called")

    def scaling(self, ratios, *words, processors=4, ends=0):
        """What the check of scaling says of passes with these ratios, and how it ends."""
        self.write("bin/nproc", f"#!/bin/bash\necho {processors}\n", 0o755)
        self.write("measured", "".join(f"{1 + number / 4} {(1 + number / 4) * it:.4f}\n" for number, it in enumerate(ratios)))
        self.write("ends", str(ends))
        out, err, status = self.run_script("bench/scaling", *words, **self.given)
        return out + err, status

    def test_draws_the_table_where_it_was_written(self):
        for words, folder in ([], "bench/out"), (["--passes", "3", "--into", "here"], "here"):
            self.write(f"{folder}/throughput.md", table({"tenth": {1: [1] * 7, 4: [2] * 7}}))
            out, err, status = self.run_script("bench/run", *words, **self.given)
            assert (out, err, status) == (f"{' '.join(['--into', self.path('bench/out'), *words])}\n", "", 0)
            assert ">tenth<" in self.read(f"{folder}/throughput.svg")

    def test_draws_nothing_without_a_table_of_rates(self):
        self.write("bench/out/throughput.md", "| Microseconds of a call | half |\n")
        assert self.run_script("bench/run", **self.given)[2] == 0
        assert not os.path.exists(self.path("bench/out/throughput.svg"))

    def test_scaling_fails_if_most_passes_are_below(self):
        # Two of nine may be better; the worst ones come first, and last.
        for ratios in [2.49] * 9, [2.4] * 7 + [3.9] * 2, [3.9] * 2 + [1] * 7:
            said, status = self.scaling(ratios)
            assert status == 1, said
            assert said.endswith("scaling: that is less than 2.5 times\n")

    def test_scaling_passes_if_a_quarter_of_the_passes_is_not_below(self):
        for ratios, told in (([2.5] * 9, "2.50 (2.50 to 2.50)"), ([1, 3, 1.5, 3.1, 1, 2.6, 1.2, 1.1, 1], "1.20 (1.00 to 2.60)")):
            said, status = self.scaling(ratios)
            assert (said, status) == (f"four threads ask {told} times as much as one, over 9 passes\n", 0)

    def test_scaling_needs_nine_passes(self):
        for ratios in [], [3] * 8:
            assert self.scaling(ratios) == (f"scaling: there are {len(ratios)} passes, and 9 are needed\n", 1)

    def test_scaling_hands_words_on(self):
        assert self.scaling([3] * 9, "--bytes", "5000000")[1] == 0
        assert self.read("asked") == "--bytes 5000000 --scaling\n"

    def test_scaling_fails_with_the_benchmark(self):
        assert self.scaling([3] * 9, ends=7)[1] == 7

    def test_scaling_is_left_out_with_three_processors(self):
        assert self.scaling([1] * 9, processors=3) == ("scaling: left out, since there are fewer than 4 processors\n", 0)
        assert not os.path.exists(self.path("called"))

    def test_counts_each_operation_of_each_form(self):
        out, err, status = self.run_script("bench/counts", **self.given)
        operations = "insert_new insert_present put look again has rank select before after range size".split()
        lines = [f"| Instructions of a call |{''.join(f' `{it}` |' for it in operations)}", "|---" * (len(operations) + 1) + "|"]
        numbers = "".join(f" {len(it)} |" for it in operations)
        forms = ["the library through C", "plain Rust, bounds checks", "plain Rust, no bounds checks"]
        assert (out.splitlines(), err, status) == (lines + [f"| {form} |{numbers}" for form in forms], "", 0)

    def test_counts_the_named_operations(self):
        out, _, status = self.run_script("bench/counts", "rank", **self.given)
        assert ([line.count("|") for line in out.splitlines()], status) == ([3] * 5, 0)

    def test_counts_of_other_answers_are_refused(self):
        self.write("odd", "unchecked")
        out, err, status = self.run_script("bench/counts", "rank", **self.given)
        assert (len(out.splitlines()), status) == (4, 1)
        assert err == "counts: plain Rust, no bounds checks does not answer rank as the library does\n"

    def test_quantiles_of_calls(self):
        # The file stands alone, so its own tests need neither cargo nor the library.
        if not shutil.which("rustc"):
            return
        program = self.path("calls")
        words = ["rustc", "--test", "--edition", "2024", "-A", "dead_code", os.path.join(TOP, "bench/src/calls.rs"), "-o", program]
        subprocess.run(words, check=True, timeout=SECONDS)
        ran = subprocess.run([program], capture_output=True, text=True, timeout=SECONDS)
        assert (ran.returncode, "test result: ok. 3 passed" in ran.stdout) == (0, True), ran.stdout
