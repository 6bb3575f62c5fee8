"""Runs the built program as its user does, and compares what it writes and its exit status with texts written by hand, and in the sweeps
with a small model.

PROGRAMS in the environment names the programs, and each test runs once for each: without it these are those that `rt ci` built. It needs the
toolchain, whose C compiler makes the library that refuses memory and threads.
"""

import array
import concurrent.futures
import fcntl
import functools
import os
import resource
import shutil
import subprocess
import sys
import termios
import time

from common import SECONDS, TOP, InFolder
from refusing import counted
from sweeps import Sweeps

EXAMPLES = os.path.join(TOP, "examples")
PROGRAMS = os.environ.get("PROGRAMS", "crates/augtrie/out/augtrie crates/augtrie/out/augtrie.by-rattle").split()

# The user and the group of nobody.
NOBODY = 65534

# The most bytes that a script may have.
SCRIPT_LIMIT = 16777216

INPUT_FAULT = (b"", b"augtrie: input\n", 3)
OUTPUT_FAULT = (b"", b"augtrie: output\n", 3)
MEMORY_FAULT = (b"", b"augtrie: memory\n", 4)
TOO_LONG = (b"", b"augtrie: script too long\n", 1)

FIRST = b"""\
0,insert,5
0,insert,9
0,insert,5
0,look
0,size
0,rank,9
0,select,1
0,range,0,16
"""

FIRST_REPORT = b"""\
1 0 insert 5 = new
1 0 insert 9 = new
1 0 insert 5 = old
1 0 look = ok
1 0 size = 2
1 0 rank 9 = 1
1 0 select 1 = 9
1 0 range 0 16 = 2 14 5 9
1 end size=2 in=2 out=0
"""

# Two rounds of one lane.
TWO_ROUNDS = b"0,insert,1\n0,insert,2\n0,insert,3\n*,end\n0,remove,2\n0,look\n0,select,1\n*,end\n"

TWO_REPORTS = (
    b"1 0 insert 1 = new\n1 0 insert 2 = new\n1 0 insert 3 = new\n1 end size=3 in=3 out=0\n",
    b"2 0 remove 2 = gone\n2 0 look = ok\n2 0 select 1 = 3\n2 end size=2 in=0 out=1\n",
)

# Two rounds of four lanes, each key of one lane.
FOUR_LANES = b"0,insert,1\n1,insert,2\n*,end\n2,insert,3\n3,remove,1\n"

FOUR_LANES_REPORTS = (
    b"1 0 insert 1 = new\n1 1 insert 2 = new\n1 end size=2 in=2 out=0\n",
    b"2 2 insert 3 = new\n2 3 remove 1 = gone\n2 end size=2 in=1 out=1\n",
)

# Two rounds of one lane, of 2 bits and of 5.
WIDER = b"0,insert,3\n*,end\n*,grow,5\n0,insert,31\n0,look\n0,rank,32\n0,before,31\n0,has,3\n"

WIDER_REPORTS = (
    b"1 0 insert 3 = new\n1 end size=1 in=1 out=0\n",
    b"2 0 insert 31 = new\n2 0 look = ok\n2 0 rank 32 = 2\n2 0 before 31 = 3\n2 0 has 3 = yes\n2 end size=2 in=1 out=0\n",
)

OTHER = b"0,size\n"

OTHER_REPORT = b"1 0 size = 0\n1 end size=0 in=0 out=0\n"

HELP = b"""\
Runs a script over a set of keys, and prints a reply for each row

Usage: augtrie [OPTIONS] [FILE]

Arguments:
  [FILE]  The script; without it standard input is read

Options:
      --bits <H>     Keys are below 2^H at first [default: 4]
      --workers <W>  Lanes are below W [default: 1]
      --updates <U>  How many rows of a lane may insert, put or remove in a round [default: 64]
  -h, --help         Print help
"""

# Scripts that run: a name, the options, the script and the report.
GOOD_SCRIPTS = [
    ("first_script", "", FIRST, FIRST_REPORT),
    ("script_of_no_bytes", "", b"", b""),
    ("script_of_blank_lines", "", b"\n\r\n\n", b""),
    (
        "one_bit",
        "--bits 1",
        b"0,insert,0\n0,insert,1\n0,remove,0\n0,look\n0,select,0\n",
        b"1 0 insert 0 = new\n1 0 insert 1 = new\n1 0 remove 0 = gone\n1 0 look = ok\n"
        b"1 0 select 0 = 1\n1 end size=1 in=2 out=1\n",
    ),
    (
        "sixteen_bits",
        "--bits=16",
        b"0,insert,65535\n0,insert,0\n0,look\n0,rank,65536\n0,after,0\n0,before,65535\n0,range,0,65536\n",
        b"1 0 insert 65535 = new\n1 0 insert 0 = new\n1 0 look = ok\n1 0 rank 65536 = 2\n"
        b"1 0 after 0 = 65535\n1 0 before 65535 = 0\n1 0 range 0 65536 = 2 65535 0 65535\n1 end size=2 in=2 out=0\n",
    ),
    (
        "empty_set",
        "",
        b"0,size\n0,has,3\n0,rank,16\n0,select,0\n0,before,16\n0,after,0\n0,range,0,16\n",
        b"1 0 size = 0\n1 0 has 3 = no\n1 0 rank 16 = 0\n1 0 select 0 = -\n1 0 before 16 = -\n"
        b"1 0 after 0 = -\n1 0 range 0 16 = 0 0 - -\n1 end size=0 in=0 out=0\n",
    ),
    ("round_of_no_rows", "", b"*,end", b"1 end size=0 in=0 out=0\n"),
    ("round_that_is_ended", "", FIRST + b"*,end\n", FIRST_REPORT),
    (
        "updates_of_two_rounds",
        "--updates 2",
        b"0,insert,1\n0,remove,1\n*,end\n0,insert,1\n",
        b"1 0 insert 1 = new\n1 0 remove 1 = gone\n1 end size=0 in=1 out=1\n2 0 insert 1 = new\n2 end size=1 in=1 out=0\n",
    ),
    (
        "snapshot_is_of_the_last_look",
        "",
        b"0,insert,7\n0,size\n0,look\n0,size\n",
        b"1 0 insert 7 = new\n1 0 size = 0\n1 0 look = ok\n1 0 size = 1\n1 end size=1 in=1 out=0\n",
    ),
    (
        "key_is_seen_after_a_look",
        "",
        b"0,insert,7\n0,has,7\n0,look\n0,has,7\n",
        b"1 0 insert 7 = new\n1 0 has 7 = no\n1 0 look = ok\n1 0 has 7 = yes\n1 end size=1 in=1 out=0\n",
    ),
    (
        "weights",
        "",
        b"0,put,5,100\n0,put,5,7\n0,look\n0,weight,5\n0,range,0,16\n0,insert,9\n0,look\n0,range,0,16\n",
        b"1 0 put 5 100 = new\n1 0 put 5 7 = set\n1 0 look = ok\n1 0 weight 5 = 7\n1 0 range 0 16 = 1 7 5 5\n"
        b"1 0 insert 9 = new\n1 0 look = ok\n1 0 range 0 16 = 2 16 5 9\n1 end size=2 in=3 out=1\n",
    ),
    (
        "weights_of_the_round_before",
        "",
        b"0,put,1,999999999\n0,put,2,0\n*,end\n*,grow,5\n0,weight,1\n0,weight,2\n0,weight,3\n0,range,0,32\n",
        b"1 0 put 1 999999999 = new\n1 0 put 2 0 = new\n1 end size=2 in=2 out=0\n2 0 weight 1 = 999999999\n"
        b"2 0 weight 2 = 0\n2 0 weight 3 = -\n2 0 range 0 32 = 2 999999999 1 2\n2 end size=2 in=0 out=0\n",
    ),
    (
        "range_leaves_its_end_out",
        "",
        b"0,insert,6\n0,insert,7\n0,look\n0,range,6,7\n0,range,0,16\n",
        b"1 0 insert 6 = new\n1 0 insert 7 = new\n1 0 look = ok\n1 0 range 6 7 = 1 6 6 6\n1 0 range 0 16 = 2 13 6 7\n"
        b"1 end size=2 in=2 out=0\n",
    ),
    (
        "removals",
        "",
        b"0,remove,3\n0,insert,3\n0,remove,3\n0,remove,3\n",
        b"1 0 remove 3 = none\n1 0 insert 3 = new\n1 0 remove 3 = gone\n1 0 remove 3 = none\n1 end size=0 in=1 out=1\n",
    ),
    (
        "range_that_ends_before_it_begins",
        "",
        b"0,insert,6\n0,insert,7\n0,look\n0,range,9,5\n",
        b"1 0 insert 6 = new\n1 0 insert 7 = new\n1 0 look = ok\n1 0 range 9 5 = 0 0 - -\n1 end size=2 in=2 out=0\n",
    ),
    (
        "as_many_updates_as_allowed",
        "--updates 2",
        b"0,insert,1\n0,remove,1\n",
        b"1 0 insert 1 = new\n1 0 remove 1 = gone\n1 end size=0 in=1 out=1\n",
    ),
    (
        "quotes_blank_lines_and_no_last_line_end",
        "",
        b'"0","insert","005"\r\n\r\n0,look',
        b"1 0 insert 5 = new\n1 0 look = ok\n1 end size=1 in=1 out=0\n",
    ),
    (
        "carriage_returns_alone",
        "",
        b"0,look\r0,size\r",
        b"1 0 look = ok\n1 0 size = 0\n1 end size=0 in=0 out=0\n",
    ),
    ("byte_order_mark", "", b"\xef\xbb\xbf0,look\n", b"1 0 look = ok\n1 end size=0 in=0 out=0\n"),
    ("two_rounds", "", TWO_ROUNDS, b"".join(TWO_REPORTS)),
    ("four_lanes", "--workers 4", FOUR_LANES, b"".join(FOUR_LANES_REPORTS)),
    ("more_bits_in_the_second_round", "--bits 2", WIDER, b"".join(WIDER_REPORTS)),
    ("more_bits_in_the_first_round", "", b"*,grow,5\n0,insert,31\n", b"1 0 insert 31 = new\n1 end size=1 in=1 out=0\n"),
    ("more_bits_for_a_round_of_no_rows", "", b"*,grow,5\n*,end\n", b"1 end size=0 in=0 out=0\n"),
    ("more_bits_for_no_round", "", b"*,grow,5\n", b""),
    ("more_bits_behind_the_last_round", "", b"0,insert,1\n*,end\n*,grow,5\n", b"1 0 insert 1 = new\n1 end size=1 in=1 out=0\n"),
    ("as_many_bits_as_before", "", b"*,grow,4\n*,grow,4\n0,insert,15\n", b"1 0 insert 15 = new\n1 end size=1 in=1 out=0\n"),
]

# Scripts with a fault: a name, the options, the script and the line of the fault after `augtrie: `.
FAULTY_SCRIPTS = [
    ("key_past_the_universe", "", b"0,insert,16", b"row 1: OutOfRange"),
    ("key_past_one_bit", "--bits 1", b"0,insert,1\n0,insert,2", b"row 2: OutOfRange"),
    ("rank_past_the_universe", "", b"0,rank,17", b"row 1: OutOfRange"),
    ("lane_that_is_not_there", "", b"1,look", b"row 1: OutOfRange"),
    ("too_few_arguments", "", b"0,insert", b"row 1: BadArity"),
    ("too_many_arguments", "", b"0,look,1", b"row 1: BadArity"),
    ("letter_for_a_number", "", b"0,insert,x", b"row 1: BadNumber"),
    ("ten_digits", "", b"0,insert,1000000000", b"row 1: BadNumber"),
    ("bad_lane_before_bad_verb", "", b"x,fly", b"row 1: BadLane"),
    ("bad_verb_before_lane_range", "", b"1,fly", b"row 1: BadVerb"),
    ("no_verb", "", b"0", b"row 1: BadVerb"),
    ("star_with_a_verb_of_a_lane", "", b"*,look", b"row 1: BadVerb"),
    ("end_with_a_lane", "", b"0,end", b"row 1: BadVerb"),
    ("end_with_an_argument", "", b"*,end,1", b"row 1: BadArity"),
    ("star_alone", "", b"*", b"row 1: BadVerb"),
    ("fault_in_a_later_round", "", b"0,insert,1\n*,end\n0,fly\n", b"row 3: BadVerb"),
    ("blank_before_a_lane", "", b" 0,look", b"row 1: BadLane"),
    ("blank_before_a_verb", "", b"0, look", b"row 1: BadVerb"),
    ("comma_at_the_end", "", b"0,look,", b"row 1: BadArity"),
    ("doubled_quote", "", b'0,"lo""ok"', b"row 1: BadVerb"),
    ("line_end_in_quotes", "", b'0,"look\n"', b"row 1: BadCsv"),
    ("tab", "", b"0,look\t", b"row 1: BadCsv"),
    ("byte_past_126", "", "0,insert,é".encode(), b"row 1: BadCsv"),
    ("too_many_updates", "--updates 2", b"0,insert,1\n0,remove,1\n0,insert,1\n", b"row 3: TooManyUpdates"),
    ("fewer_bits", "", b"*,grow,3", b"row 1: OutOfRange"),
    ("fewer_bits_than_in_the_round_before", "", b"*,grow,6\n*,end\n*,grow,5", b"row 3: OutOfRange"),
    ("seventeen_bits", "", b"*,grow,17", b"row 1: OutOfRange"),
    ("grow_without_bits", "", b"*,grow", b"row 1: BadArity"),
    ("grow_with_a_lane", "", b"0,grow,5", b"row 1: BadVerb"),
    ("grow_behind_a_row_of_its_round", "", b"0,insert,1\n*,grow,5\n", b"row 2: BadPlace"),
    ("key_past_more_bits", "", b"*,grow,5\n0,insert,32", b"row 2: OutOfRange"),
    ("grow_to_a_table_of_too_many_words", "--workers 64 --updates 13108", b"*,grow,16", b"row 1: TooWide"),
    ("grow_to_a_table_of_a_few_words_too_many", "--bits 15 --workers 64 --updates 13018", b"*,grow,16", b"row 1: TooWide"),
    ("fault_behind_good_rows", "", FIRST + b"\n0,insert,16\n0,fly\n", b"row 9: OutOfRange"),
]

# How the parser's texts end.
TRY_HELP = b"\nFor more information, try '--help'.\n"
USAGE = b"\nUsage: augtrie [OPTIONS] [FILE]\n" + TRY_HELP

SECOND_FILE = b"error: unexpected argument 'other.csv' found\n" + USAGE

# Words that the command line does not take: a name, the words and the parser's whole text.
BAD_WORDS = [
    (
        "unknown_option",
        ["--lanes", "3"],
        b"error: unexpected argument '--lanes' found\n\n  tip: to pass '--lanes' as a value, use '-- --lanes'\n" + USAGE,
    ),
    ("second_file", ["first.csv", "other.csv"], SECOND_FILE),
    ("option_without_its_value", ["--bits"], b"error: a value is required for '--bits <H>' but none was supplied\n" + TRY_HELP),
    ("option_twice", ["--bits", "3", "--bits", "3"], b"error: the argument '--bits <H>' cannot be used multiple times\n" + USAGE),
    ("bits_of_0", ["--bits", "0"], b"error: invalid value '0' for '--bits <H>': 0 is not in 1..=16\n" + TRY_HELP),
    ("bits_of_17", ["--bits=17"], b"error: invalid value '17' for '--bits <H>': 17 is not in 1..=16\n" + TRY_HELP),
    ("bits_of_a_letter", ["--bits", "x"], b"error: invalid value 'x' for '--bits <H>': invalid digit found in string\n" + TRY_HELP),
    ("workers_of_0", ["--workers", "0"], b"error: invalid value '0' for '--workers <W>': 0 is not in 1..=64\n" + TRY_HELP),
    ("workers_of_65", ["--workers", "65"], b"error: invalid value '65' for '--workers <W>': 65 is not in 1..=64\n" + TRY_HELP),
    ("updates_of_0", ["--updates", "0"], b"error: invalid value '0' for '--updates <U>': 0 is not in 1..=65536\n" + TRY_HELP),
    (
        "updates_of_65537",
        ["--updates", "65537"],
        b"error: invalid value '65537' for '--updates <U>': 65537 is not in 1..=65536\n" + TRY_HELP,
    ),
    (
        "words_before_the_file",
        ["--bits", "17", "missing.csv"],
        b"error: invalid value '17' for '--bits <H>': 17 is not in 1..=16\n" + TRY_HELP,
    ),
    ("word_that_is_no_utf_8", [b"\xff"], b"error: a word of the command line is no UTF-8\n"),
    ("word_that_is_no_utf_8_behind_good_ones", ["--bits", "4", "first.csv", b"a\xc3"], b"error: a word of the command line is no UTF-8\n"),
]

# Other runs: a name, the words, the standard input, and how they must end.
RUNS = [
    ("file_is_read_and_standard_input_is_not", ["first.csv"], OTHER, (FIRST_REPORT, b"", 0)),
    ("file_named_as_an_option", ["--", "--bits"], FIRST, (OTHER_REPORT, b"", 0)),
    ("file_behind_options", ["--workers", "1", "first.csv", "--bits", "5"], b"", (FIRST_REPORT, b"", 0)),
    ("table_of_too_many_words", "--bits 16 --workers 64 --updates 13108 missing.csv".split(), FIRST, (b"", b"augtrie: TooLarge\n", 2)),
    ("options_hold_for_the_file", ["--bits", "1", "first.csv"], b"", (b"", b"augtrie: row 1: OutOfRange\n", 1)),
    ("file_of_no_bytes", ["empty.csv"], FIRST, (b"", b"", 0)),
    ("file_that_is_not_there", ["missing.csv"], FIRST, INPUT_FAULT),
    ("file_that_cannot_be_read", ["."], FIRST, INPUT_FAULT),
    ("help", ["--help"], FIRST, (HELP, b"", 0)),
    ("short_help", ["-h"], FIRST, (HELP, b"", 0)),
    ("help_before_a_file_that_is_not_there", ["missing.csv", "--help"], b"", (HELP, b"", 0)),
]

# What is written to a device that takes no byte, as one of the streams: a name, the words, the stream, and how the run must end.
TO_A_FULL_DEVICE = [
    ("report", [], "stdout", OUTPUT_FAULT),
    ("help", ["--help"], "stdout", (b"", b"", 0)),
    ("fault_of_a_script", ["--bits", "1"], "stderr", (b"", b"", 1)),
    ("fault_of_the_words", ["--lanes"], "stderr", (b"", b"", 2)),
    ("fault_of_the_input", ["missing.csv"], "stderr", (b"", b"", 3)),
]

# As many words as the options and the file are.
ALL_WORDS = ["--bits", "4", "--workers", "1", "--updates", "64", "first.csv"]


class Outside(Sweeps, InFolder):
    """The tests of one built program, in a folder with some scripts."""

    program = None

    def setup_method(self):
        super().setup_method()
        self.write("first.csv", FIRST)
        self.write("other.csv", OTHER)
        self.write("empty.csv", b"")
        self.write("--bits", OTHER)

    def write(self, name, text):
        with open(self.path(name), "wb") as file:
            file.write(text)

    def run_on(self, words, script=b"", stdin=None, stdout=subprocess.PIPE, stderr=subprocess.PIPE, **given):
        """Runs the program, and returns what it wrote to standard output and to standard error, and its status."""
        given = {"env": {}, **given, **({"input": script} if stdin is None else {"stdin": stdin})}
        words = [self.program, *words]
        ran = subprocess.run(words, cwd=self.folder, stdout=stdout, stderr=stderr, timeout=SECONDS, **given)
        return ran.stdout, ran.stderr, ran.returncode

    # Where the script comes from.

    def test_two_lanes_that_race_for_one_key(self):
        for _ in range(50):
            out, err, status = self.run_on(["--workers", "2"], b"0,insert,6\n1,insert,6\n")
            assert (err, status) == (b"", 0)
            first, second, end = out.splitlines()
            replies = {first.removeprefix(b"1 0 insert 6 = "), second.removeprefix(b"1 1 insert 6 = ")}
            assert (replies, end) == ({b"new", b"old"}, b"1 end size=1 in=1 out=0")

    def test_standard_input_that_cannot_be_read(self):
        folder = os.open(self.folder, os.O_RDONLY)
        self.after.callback(os.close, folder)
        assert self.run_on([], stdin=folder) == INPUT_FAULT

    def test_file_that_may_not_be_read(self):
        self.write("secret.csv", FIRST)
        os.chmod(self.path("secret.csv"), 0)
        stranger = self.as_stranger()
        assert self.run_on(["first.csv"], OTHER, **stranger) == (FIRST_REPORT, b"", 0)
        assert self.run_on(["secret.csv"], OTHER, **stranger) == INPUT_FAULT

    def as_stranger(self):
        """How to run the program with no more than a user's rights: as nobody, who can reach a copy of it, where the tests run as root."""
        if os.getuid() != 0:
            return {}
        os.chmod(self.folder, 0o755)
        self.program = os.path.join(".", os.path.basename(shutil.copy(self.program, self.folder)))
        return {"user": NOBODY, "group": NOBODY, "extra_groups": []}

    def test_odd_names_of_files_that_are_not_there(self):
        for name in ("", "-", " ", " first.csv", "first.csv ", " first.csv ", "\tfirst.csv", "first.csv\n", "First.csv", "first.csv/"):
            assert self.run_on([name], FIRST) == INPUT_FAULT, repr(name)
            assert self.run_on(["--bits", "4", "--", name], FIRST) == INPUT_FAULT, repr(name)

    def test_odd_names_of_files_that_are_there(self):
        for name in ("-", " ", " first.csv", "first.csv ", " first.csv ", "first.csv\n", "é.csv", "x" * 255):
            self.write(name, OTHER)
            assert self.run_on([name], FIRST) == (OTHER_REPORT, b"", 0), repr(name)

    def test_as_many_words_as_there_are(self):
        assert self.run_on(ALL_WORDS, OTHER) == (FIRST_REPORT, b"", 0)
        assert self.run_on([*ALL_WORDS[:-1], "--", "first.csv"], OTHER) == (FIRST_REPORT, b"", 0)

    def test_more_words_than_there_are(self):
        for more in (1, 2, 3, 10, 100, 1000):
            assert self.run_on([*ALL_WORDS, *["other.csv"] * more]) == (b"", SECOND_FILE, 2), f"{more} more"
        assert self.run_on([*ALL_WORDS[:-1], "--", "first.csv", "other.csv"]) == (b"", SECOND_FILE, 2)
        assert self.run_on([*ALL_WORDS, "--help"]) == (HELP, b"", 0)

    def test_script_that_comes_in_pieces_by_a_pipe(self):
        for pieces, report in self.pieces():
            reader, writer = os.pipe()
            with os.fdopen(reader, "rb") as script:
                assert self.feed(writer, pieces, [], stdin=script) == (report, b"", 0)

    def test_script_that_comes_in_pieces_by_a_named_pipe(self):
        path = self.path("pipe.csv")
        os.mkfifo(path)
        for pieces, report in self.pieces():
            # both ends, so that nobody waits for the other
            writer = os.open(path, os.O_RDWR)
            assert self.feed(writer, pieces, ["pipe.csv"], stdin=subprocess.DEVNULL) == (report, b"", 0)

    def pieces(self):
        """Scripts in pieces, each with its report."""
        long = b"0,size\n" * 10000
        yield [FIRST[:30], FIRST[30:]], FIRST_REPORT
        yield [FIRST[place : place + 1] for place in range(len(FIRST))], FIRST_REPORT
        for size in (4096, 8191, 8192, 8193):
            parts = [long[place : place + size] for place in range(0, len(long), size)]
            yield parts, b"1 0 size = 0\n" * 10000 + b"1 end size=0 in=0 out=0\n"

    def feed(self, writer, pieces, words, stdin):
        """Runs the program, and writes each piece to its pipe once it has read the one before."""
        streams = {"stdin": stdin, "stdout": subprocess.PIPE, "stderr": subprocess.PIPE}
        with subprocess.Popen([self.program, *words], cwd=self.folder, env={}, **streams) as running:
            end = time.monotonic() + SECONDS
            for piece in pieces:
                if running.poll() is None:
                    os.write(writer, piece)
                while count_unread(writer) and running.poll() is None:
                    if time.monotonic() > end:
                        running.kill()
                    time.sleep(0.0005)
            os.close(writer)
            out, err = running.communicate(timeout=SECONDS)
            return out, err, running.returncode

    def test_closed_standard_input(self):
        assert self.run_on([], FIRST, preexec_fn=closing(0)) == INPUT_FAULT
        assert self.run_on(["first.csv"], OTHER, preexec_fn=closing(0)) == (FIRST_REPORT, b"", 0)

    def test_script_at_its_limit(self):
        self.write("long.csv", b"\n" * SCRIPT_LIMIT)
        assert self.run_on(["long.csv"]) == (b"", b"", 0)

    def test_script_past_its_limit(self):
        self.write("long.csv", b"\n" * (SCRIPT_LIMIT + 1))
        assert self.run_on(["long.csv"]) == TOO_LONG

    def test_script_past_its_limit_from_standard_input(self):
        self.write("long.csv", FIRST + b"\n" * SCRIPT_LIMIT)
        with open(self.path("long.csv"), "rb") as file:
            assert self.run_on([], stdin=file) == TOO_LONG

    # Where it writes to.

    def test_report_longer_than_a_pipe_holds(self):
        rows = 20000
        report = b"1 0 size = 0\n" * rows + b"1 end size=0 in=0 out=0\n"
        assert self.run_on([], b"0,size\n" * rows) == (report, b"", 0)

    def test_report_to_a_closed_pipe(self):
        reader, writer = os.pipe()
        os.close(reader)
        self.after.callback(os.close, writer)
        _, err, status = self.run_on(["first.csv"], stdout=writer)
        assert (b"", err, status) == OUTPUT_FAULT

    def test_closed_standard_output(self):
        assert self.run_on([], FIRST, preexec_fn=closing(1)) == OUTPUT_FAULT
        assert self.run_on(["first.csv"], preexec_fn=closing(1)) == OUTPUT_FAULT
        assert self.run_on(["--help"], preexec_fn=closing(1)) == (b"", b"", 0)
        assert self.run_on(["empty.csv"], preexec_fn=closing(1)) == (b"", b"", 0)

    def test_closed_standard_error(self):
        assert self.run_on(["first.csv"], preexec_fn=closing(2)) == (FIRST_REPORT, b"", 0)
        for words, status in (["--lanes"], 2), (["missing.csv"], 3), (["--bits", "1", "first.csv"], 1):
            assert self.run_on(words, preexec_fn=closing(2)) == (b"", b"", status)

    def test_all_streams_closed(self):
        for words, status in ([], 3), (["first.csv"], 3), (["--lanes"], 2), (["--help"], 0):
            assert self.run_on(words, preexec_fn=closing(0, 1, 2)) == (b"", b"", status)
        assert read(self.path("first.csv")) == FIRST

    def test_fault_of_the_output_to_a_full_device(self):
        with open("/dev/full", "wb") as full:
            assert self.run_on([], FIRST, stdout=full, stderr=full)[2] == 3

    def test_report_to_a_file_that_takes_a_part_of_it(self):
        for size in range(len(FIRST_REPORT)):
            assert self.to_short_file(size) == (FIRST_REPORT[:size], OUTPUT_FAULT[1], OUTPUT_FAULT[2])
        assert self.to_short_file(len(FIRST_REPORT)) == (FIRST_REPORT, b"", 0)

    def to_short_file(self, size):
        """Runs the first script into a file that takes so many bytes: what it then has, what was written to standard error, the status."""
        limit = lambda: resource.setrlimit(resource.RLIMIT_FSIZE, (size, size))
        path = self.path("report")
        with open(path, "wb") as file:
            # the signal that tells of the limit stays ignored
            _, err, status = self.run_on([], FIRST, stdout=file, preexec_fn=limit, restore_signals=False)
        return read(path), err, status

    # Want of memory, and of threads.

    def test_each_request_for_memory_refused(self):
        self.refuse_each([], FIRST, FIRST_REPORT, [MEMORY_FAULT])

    def test_each_request_for_memory_refused_with_a_file(self):
        # room that is asked for ahead can be done without
        wanted = [MEMORY_FAULT, INPUT_FAULT, (FIRST_REPORT, b"", 0)]
        self.refuse_each(["--updates", "9", "first.csv"], b"", FIRST_REPORT, wanted)

    def test_each_request_for_memory_refused_in_two_rounds(self):
        for words, script, reports in (
            ([], TWO_ROUNDS, TWO_REPORTS),
            (["--workers", "4"], FOUR_LANES, FOUR_LANES_REPORTS),
            (["--bits", "2"], WIDER, WIDER_REPORTS),
        ):
            report = b"".join(reports)
            # room that is asked for ahead, for the words, can be done without
            wanted = [MEMORY_FAULT, (reports[0], *MEMORY_FAULT[1:]), *[(report, b"", 0)] * bool(words)]
            assert self.refuse_each(words, script, report, wanted) == wanted

    def refuse_each(self, words, script, report, wanted):
        """Counts the program's requests for memory, and then refuses each in turn: the run ends in one of the wanted ways. Returns those
        that were seen, in the order of `wanted`."""
        run = lambda **given: self.run_on(words, script, **given)
        ended, (requests, _, blocks) = counted(run)
        assert (ended, blocks) == ((report, b"", 0), 0)
        seen = []
        for number in range(1, requests + 1):
            ended, counts = counted(run, request=number)
            assert ended in wanted, f"with request {number} of {requests} refused"
            assert counts.blocks == 0, f"blocks left with request {number} of {requests} refused"
            seen.append(ended)
        refused = sum(status != 0 for _, _, status in seen)
        assert refused > 10
        assert refused >= requests - 1
        return [it for it in wanted if it in seen]

    def test_table_that_there_is_no_memory_for(self):
        # the words take half a gigabyte, twice while the table is opened
        room = lambda: resource.setrlimit(resource.RLIMIT_AS, (700 << 20, 700 << 20))
        words = ["--bits", "16", "--workers", "64", "--updates", "13017", "first.csv"]
        assert self.run_on(words, preexec_fn=room) == MEMORY_FAULT

    def test_user_who_may_start_no_thread(self):
        stranger = self.as_stranger()
        one = lambda: resource.setrlimit(resource.RLIMIT_NPROC, (1, 1))
        assert self.run_on(["first.csv"], **stranger) == (FIRST_REPORT, b"", 0)
        for words in ["first.csv"], ["--workers", "64", "first.csv"]:
            assert self.run_on(words, **stranger, preexec_fn=one) == MEMORY_FAULT
        assert self.run_on(["empty.csv"], **stranger, preexec_fn=one) == (b"", b"", 0)

    def test_each_start_of_a_thread_refused(self):
        run = lambda **given: self.run_on(["--workers", "4"], FOUR_LANES, **given)
        ended, counts = counted(run)
        assert (ended, counts.starts, counts.blocks) == ((b"".join(FOUR_LANES_REPORTS), b"", 0), 8, 0)
        for number in range(1, 9):
            out = FOUR_LANES_REPORTS[0] if number > 4 else b""
            ended, counts = counted(run, start=number)
            assert (ended, counts.blocks) == ((out, *MEMORY_FAULT[1:]), 0), f"with start {number} refused"

    # Under load.

    def test_script_of_the_greatest_size_in_64_lanes(self):
        rows = [(lane, 1024 * lane + place) for place in range(1024) for lane in range(64)]
        script = b"".join(b"%d,insert,%d\n" % row for row in rows) + b"".join(b"%d,look\n" % lane for lane in range(64))
        asked = b"".join(b"%d,has,%d\n" % row for row in rows)
        times = (SCRIPT_LIMIT - len(script)) // len(asked)
        self.write("long.csv", (script + asked * times).ljust(SCRIPT_LIMIT, b"\n"))
        report = b"".join(b"1 %d insert %d = new\n" % row for row in rows) + b"".join(b"1 %d look = ok\n" % lane for lane in range(64))
        report += b"".join(b"1 %d has %d = yes\n" % row for row in rows) * times + b"1 end size=65536 in=65536 out=0\n"
        out, err, status = self.run_on(["--bits", "16", "--workers", "64", "--updates", "1024", "long.csv"])
        assert (err, status) == (b"", 0)
        assert out == report, "not the report of this script"

    def test_greatest_table(self):
        self.assert_runs_in_64_lanes("16", b"")

    def test_greatest_table_of_more_bits(self):
        self.assert_runs_in_64_lanes("15", b"*,grow,16\n")

    def assert_runs_in_64_lanes(self, bits, before):
        """Runs a row in each lane of the greatest table, behind what stands before them."""
        script = before + b"".join(b"%d,insert,%d\n" % (lane, 1040 * lane) for lane in range(64))
        report = b"".join(b"1 %d insert %d = new\n" % (lane, 1040 * lane) for lane in range(64))
        words = ["--bits", bits, "--workers", "64", "--updates", "13017"]
        assert self.run_on(words, script) == (report + b"1 end size=64 in=64 out=0\n", b"", 0)

    def test_script_of_the_greatest_size_with_grow_in_each_round(self):
        # 128 rounds of 128 KiB each, of 1 to 16 bits
        bits = [1 + number // 8 for number in range(128)]
        asked = [b"0,rank,%d\n" % (1 << most) for most in bits]
        rounds = [b"*,grow,%d\n%b*,end\n" % (most, row * 9000) for most, row in zip(bits, asked)]
        self.write("long.csv", b"".join(rounds).ljust(SCRIPT_LIMIT, b"\n"))
        assert os.path.getsize(self.path("long.csv")) == SCRIPT_LIMIT
        report = b"".join(
            b"%d 0 rank %d = 0\n" % (number, 1 << most) * 9000 + b"%d end size=0 in=0 out=0\n" % number
            for number, most in enumerate(bits, 1)
        )
        out, err, status = self.run_on(["--bits", "1", "long.csv"])
        assert (err, status) == (b"", 0)
        assert out == report, "not the report of this script"

    def test_script_of_the_greatest_size_of_grow_alone(self):
        self.write("long.csv", (b"*,grow,4\n" * (SCRIPT_LIMIT // 9)).ljust(SCRIPT_LIMIT, b"\n"))
        assert self.run_on(["long.csv"]) == (b"", b"", 0)

    def test_script_of_the_greatest_size_with_the_most_rounds_and_a_fault(self):
        rounds = SCRIPT_LIMIT // 15 - 1
        self.write("long.csv", b"*,grow,4\n*,end\n" * rounds + b"*,fly")
        line = b"augtrie: row %d: BadVerb\n" % (2 * rounds + 1)
        assert self.run_on(["long.csv"]) == (b"", line, 1)

    def test_rounds_give_their_memory_back(self):
        # the table of each round takes some 4 MB
        words = ["--bits", "16", "--workers", "64"]
        one, many = (self.peak_of(words, b"0,insert,1\n*,end\n" * rounds) for rounds in (1, 100))
        assert many < 2 * one

    def test_round_of_more_bits_takes_what_its_own_bits_take(self):
        words = ["--workers", "64"]
        grown = self.peak_of(["--bits", "1", *words], b"0,insert,1\n*,end\n*,grow,16\n0,insert,65535\n")
        straight = self.peak_of(["--bits", "16", *words], b"0,insert,1\n*,end\n0,insert,65535\n")
        assert grown < 1.2 * straight

    def peak_of(self, words, script):
        """How many KiB a run takes at most."""
        measured = "import resource, subprocess, sys; subprocess.run(sys.argv[1:], stdout=subprocess.DEVNULL, check=True); "
        measured += "print(resource.getrusage(resource.RUSAGE_CHILDREN).ru_maxrss)"
        words = [sys.executable, "-c", measured, self.program, *words]
        return int(subprocess.run(words, input=script, stdout=subprocess.PIPE, timeout=SECONDS, check=True).stdout)

    def test_several_programs_at_once(self):
        wanted = (b"".join(FOUR_LANES_REPORTS), b"", 0)
        with concurrent.futures.ThreadPoolExecutor(8) as pool:
            ran = [pool.submit(self.run_on, ["--workers", "4"], FOUR_LANES) for _ in range(64)]
            for it in ran:
                assert it.result() == wanted


def closing(*streams):
    """What closes some streams of the program before it begins."""
    return lambda: [os.close(stream) for stream in streams]


def count_unread(pipe):
    """How many bytes of a pipe nobody has read yet."""
    count = array.array("i", [0])
    fcntl.ioctl(pipe, termios.FIONREAD, count)
    return count[0]


def read(path):
    with open(path, "rb") as file:
        return file.read()


def check_run(test, words, script, wanted):
    assert test.run_on(words, script) == wanted


def check_full_device(test, words, stream, wanted):
    with open("/dev/full", "wb") as full:
        out, err, status = test.run_on(words, FIRST, **{stream: full})
    assert (out or b"", err or b"", status) == wanted


def check_example(test, name):
    """Runs a script of examples/ as a file and as standard input, with the words of its file .args if it has one."""
    path = os.path.join(EXAMPLES, name)
    words = read(f"{path}.args").decode().split() if os.path.exists(f"{path}.args") else []
    wanted = (read(f"{path}.out"), b"", 0)
    assert test.run_on([*words, f"{path}.csv"], FIRST) == wanted
    assert test.run_on(words, read(f"{path}.csv")) == wanted


def add(name, check, *given):
    setattr(Outside, f"test_{name}", functools.partialmethod(check, *given))


# A test for each row of the tables, and one for each script of examples/.
for name, options, script, report in GOOD_SCRIPTS:
    add(f"good_{name}", check_run, options.split(), script, (report, b"", 0))
for name, options, script, line in FAULTY_SCRIPTS:
    add(f"faulty_{name}", check_run, options.split(), script, (b"", b"augtrie: " + line + b"\n", 1))
for name, words, text in BAD_WORDS:
    add(f"words_{name}", check_run, words, FIRST, (b"", text, 2))
for name, words, script, wanted in RUNS:
    add(name, check_run, words, script, wanted)
for name, words, stream, wanted in TO_A_FULL_DEVICE:
    add(f"{name}_to_a_full_device", check_full_device, words, stream, wanted)
for name in sorted(os.path.splitext(file)[0] for file in os.listdir(EXAMPLES) if file.endswith(".csv")):
    add(f"example_{name}", check_example, name)

# How many tests there are of each kind at least: fewer means that a table was lost.
LEAST = {"": 140, "good_": 24, "faulty_": 34, "words_": 14, "sweep_": 11, "example_": 6, "each_": 4}


def test_each_kind_has_its_tests():
    counts = {kind: sum(name.startswith(f"test_{kind}") for name in dir(Outside)) for kind in LEAST}
    assert {kind: count for kind, count in counts.items() if count < LEAST[kind]} == {}


def missing(path):
    raise AssertionError(f"{path} is not there to be tested")


for number, path in enumerate(PROGRAMS):
    path = os.path.join(TOP, path)
    if os.access(path, os.X_OK):
        name = f"TestOutside{number}"
        globals()[name] = type(name, (Outside,), {"program": path})
    else:
        globals()[f"test_program_{number}"] = functools.partial(missing, path)
