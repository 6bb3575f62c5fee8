"""The scripts of tests/faults/ find what must fail."""

import os
import subprocess
import sys

from common import SECONDS, TESTS, InFolder, failure, quietly
from refusing import compile_c, counted

sys.path.append(os.path.join(TESTS, "faults"))

import built
import test_refused
import test_requests
import test_sleeping

# Makes three requests for memory and two starts of threads, and prints a digit for each: 1 where it was granted, 0 where it was refused
# with the right number. It keeps so many of its blocks as its first word says, and with a second one it ends by _exit.
REQUESTS = r"""
extern void *malloc(unsigned long), *realloc(void *, unsigned long);
extern void free(void *), _exit(int);
extern long write(int, const void *, unsigned long);
extern int *__errno_location(void);
extern int pthread_create(unsigned long *, const void *, void *(*)(void *), void *), pthread_join(unsigned long, void **);

static char digit(int is_granted, int number, int wanted) { return is_granted ? '1' : number == wanted ? '0' : '?'; }
static char given(void *block) { return digit(block != 0, *__errno_location(), 12); }
static void *rest(void *argument) { return argument; }

static char start(void) {
    unsigned long thread;
    int number = pthread_create(&thread, 0, rest, 0);
    if (!number) pthread_join(thread, 0);
    return digit(!number, number, 11);
}

int main(int count, char **words) {
    char said[6] = "";
    void *first = malloc(10);
    said[0] = given(first);
    void *second = realloc(0, 10);
    said[1] = given(second);
    void *grown = realloc(second, 1000000);
    said[2] = given(grown);
    said[3] = start();
    said[4] = start();
    write(1, said, 5);
    if (words[1][0] < '2') free(grown ? grown : second);
    if (words[1][0] < '1') free(first);
    if (count > 2) _exit(0);
    return 0;
}
"""

# Stands in for the built tests of a crate: it lists LISTED, and its one test makes ASKED requests, says WANT once more than STANDS of them were
# refused, and works and sleeps for so many milliseconds.
BUILT_TESTS = r"""
extern void *malloc(unsigned long);
extern void free(void *);
extern int usleep(unsigned);
extern long clock(void), write(int, const void *, unsigned long);

int main(int count, char **words) {
    if (words[1][0] == '-') return write(1, LISTED, sizeof LISTED - 1) < 0;
    for (int left = ASKED, refused = 0; left; left--) {
        void *block = malloc(10);
        refused += !block;
        if (refused > STANDS) return write(1, WANT, sizeof WANT - 1) < 0 ? 1 : 101;
        if (!LEAKS || block && left > 1) free(block);
    }
    while (clock() < 1000 * WORKS);
    for (int left = SLEEPS; left; left--) usleep(1000);
    write(1, ENDING, sizeof ENDING - 1);
    return STATUS;
}
"""

class TestRefuse(InFolder):
    """tests/refuse.c refuses the request and the start of a number, and later ones too, and tells of each block that is not given back."""

    def setup_method(self):
        super().setup_method()
        self.program = self.path("requests")
        compile_c(self.write("requests.c", REQUESTS), self.program)

    def run_with(self, *words, **which):
        """What the program said, and its counts."""
        run = lambda **given: subprocess.run([self.program, *words], stdout=subprocess.PIPE, timeout=SECONDS, check=True, **given).stdout
        said, counts = counted(run, **which)
        return said.decode(), tuple(counts)

    def test_counts_requests_and_starts(self):
        assert self.run_with("0") == ("11111", (3, 2, 0))

    def test_tells_of_each_block_that_is_kept(self):
        for ending in [], ["exit"]:
            assert self.run_with("1", *ending) == ("11111", (3, 2, 1))
            assert self.run_with("2", *ending) == ("11111", (3, 2, 2))

    def test_refuses_the_request_of_the_number(self):
        for number, said in enumerate(["01111", "10111", "11011", "11111"], 1):
            assert self.run_with("0", request=number) == (said, (3, 2, 0))

    def test_refuses_the_start_of_the_number(self):
        for number, said in enumerate(["11101", "11110", "11111"], 1):
            assert self.run_with("0", start=number) == (said, (3, 2, 0))

    def test_refuses_each_later_one_of_a_kind(self):
        for number, said in enumerate(["00011", "10011", "11011", "11111"], 1):
            assert self.run_with("0", request=number, later=True) == (said, (3, 2, 0))
        for number, said in enumerate(["11100", "11110", "11111"], 1):
            assert self.run_with("0", start=number, later=True) == (said, (3, 2, 0))
        assert self.run_with("0", later=True) == ("11111", (3, 2, 0))

    def test_tells_of_a_block_that_is_kept_behind_a_refusal(self):
        assert self.run_with("2", request=1) == ("01111", (3, 2, 1))


class Sample(InFolder):
    """Runs the tests of a crate that stands in for the built ones."""

    # The file of tests/faults/ that is tested, the tests of the sources, and what the built one does.
    check, pattern = None, ""
    source = ""
    listed = ""
    well = {
        **{"ASKED": 3, "STANDS": 3, "WANT": '"Error: OutOfMemory\\nthe test failed: its result gives status 1\\n"', "LEAKS": 0},
        **{"WORKS": 0, "SLEEPS": 0, "ENDING": '"\\ntest result: ok\\n"', "STATUS": 0},
    }

    def run_on(self, source=None, is_built=True, **changed):
        """Why each of its tests fails, or nothing, and what was printed."""
        self.write("sample/src/tests.rt", source or self.source)
        if is_built:
            defined = [f"-D{name}={value}" for name, value in {"LISTED": self.listed, **self.well, **changed}.items()]
            compile_c(self.write("tests.c", BUILT_TESTS), self.write("sample/out/sample_tests", "", 0o755), ["-w", *defined])
        found = built.tests(self.pattern, type(self).check, self.folder)
        return quietly(lambda: {name: failure(call) for name, call in found.items()})

    def assert_fails(self, why, **given):
        """It has one test that fails."""
        ((name, said),) = self.run_on(**given)[0].items()
        assert why in said, name


class TestRefused(Sample):
    check, pattern = test_refused.refuse_each, "^refused_"
    source = "#[test]\nfn others() {}\n\n#[test]\nfn refused_one(rt: HostRuntime) {}\n\nfn refused_helper() {}\n"
    listed = '"tests::others: test\\ntests::refused_one: test\\ntests: 2\\n"'

    def test_each_request_is_refused(self):
        failed, said = self.run_on()
        assert failed == {"test_sample_tests_refused_one": ""}
        assert said == "tests::refused_one: 3 requests and 0 starts refused in turn, and from each on\n"

    def test_tests_that_are_not_built(self):
        self.assert_fails("sample_tests has no refused_one", is_built=False)

    def test_tests_that_are_not_listed(self):
        self.assert_fails("sample_tests has no refused_one", LISTED='"tests: 0\\n"')

    def test_one_of_two_that_is_not_listed(self):
        failed, _ = self.run_on(self.source + "#[test]\n#[allow(unused)]\nfn refused_two() {}\n")
        assert "sample_tests has no refused_two" in failed.pop("test_sample_refused_two")
        assert failed == {"test_sample_tests_refused_one": ""}

    def test_no_crate_with_such_tests(self):
        assert self.run_on("#[test]\nfn others() {}\n") == ({}, "")

    def test_test_that_makes_no_request(self):
        self.assert_fails("with nothing refused, Counts(requests=0", ASKED=0)

    def test_test_that_does_not_say_that_it_passed(self):
        self.assert_fails("with nothing refused", ENDING='"no test was run\\n"')

    def test_test_that_fails_though_it_says_that_it_passed(self):
        self.assert_fails("with nothing refused", STATUS=3)

    def assert_fails_in(self, numbers, **given):
        """It fails if each of some requests is refused, alone or, as these say, with all later ones."""
        ((name, said),) = self.run_on(**given)[0].items()
        runs = [f"with request {number}{later} refused" for later in ("", " and all later ones") for number in (1, 2, 3)]
        assert [run for run in runs if f"{run}: " in said] == [runs[number] for number in numbers], name

    def test_test_that_fails_where_memory_is_refused(self):
        self.assert_fails_in(range(6), STANDS=0, WANT='"it panicked\\n"')

    def test_test_that_answers_its_want_of_memory(self):
        assert self.run_on(STANDS=1)[0] == {"test_sample_tests_refused_one": ""}
        self.assert_fails_in(range(3), STANDS=0)
        self.assert_fails("with nothing refused", ENDING=self.well["WANT"], STATUS=101)

    def test_test_that_finds_something_else_where_each_later_request_is_refused(self):
        for want in "it panicked", "Error: TooLarge\\nthe test failed: its result gives status 1":
            self.assert_fails_in([3, 4], STANDS=1, WANT=f'"{want}\\n"')

    def test_test_that_keeps_a_block(self):
        self.assert_fails("blocks=1", LEAKS=1)


class TestRequests(Sample):
    check, pattern = test_requests.count_requests, test_requests.SAYS
    source = "#[test]\nfn one_asks_3_times_for_memory() {}\n"
    listed = '"tests::one_asks_3_times_for_memory: test\\ntests: 1\\n"'

    def test_test_that_asks_as_often_as_it_says(self):
        assert self.run_on()[0] == {"test_sample_tests_one_asks_3_times_for_memory": ""}

    def test_test_that_asks_more_or_less_often(self):
        for count in 2, 4:
            assert any(self.run_on(ASKED=count)[0].values())

    def test_test_that_fails(self):
        assert any(self.run_on(STATUS=1)[0].values())

    def test_test_that_is_not_built(self):
        self.assert_fails("has no one_asks_3_times_for_memory", is_built=False)


class TestSleeping(Sample):
    check, pattern = test_sleeping.measure, test_sleeping.SAYS
    source = "#[test]\nfn one_sleeps_for_1_second() {}\n\n#[test]\nfn others() {}\n"
    listed = '"tests::one_sleeps_for_1_second: test\\ntests::others: test\\ntests: 2\\n"'
    well = {**Sample.well, "WORKS": 1, "SLEEPS": 1000}

    def test_test_that_sleeps(self):
        assert self.run_on()[0] == {"test_sample_tests_one_sleeps_for_1_second": ""}

    def test_test_that_works_or_does_not_sleep_or_fails(self):
        for changed in {"WORKS": 300}, {"SLEEPS": 100}, {"STATUS": 1}:
            assert any(self.run_on(**changed)[0].values()), changed

    def test_tests_that_are_not_there(self):
        self.assert_fails("has no one_sleeps_for_1_second", is_built=False)
        self.assert_fails("has no one_sleeps_for_1_second", LISTED='"tests: 0\\n"')
        assert self.run_on(self.source.replace("second()", "round()"))[0] == {}
