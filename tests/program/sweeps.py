"""Runs the program over all bits and lanes, and over every small number of rows, updates, bytes and rounds, with ample memory: the whole of
what it prints is what the model says."""

import concurrent.futures
import os
import random

from model import reports_of, script_of

# Each fault: its name, the options, where {} is how many rows are in front of it, each of these rows, and the row that has it.
FAULTS = [
    ("BadCsv", "", b"0,look\n", b"0,look\t"),
    ("BadLane", "", b"0,size\n", b"x,look"),
    ("BadVerb", "", b"*,end\n", b"0,fly"),
    ("BadArity", "", b"*,grow,5\n", b"0,look,1"),
    ("BadNumber", "--updates {}", b"0,put,1,2\n", b"0,rank,x"),
    ("OutOfRange", "", b"0,range,0,16\n", b"0,insert,16"),
    ("TooManyUpdates", "--updates {}", b"0,insert,1\n", b"0,remove,1"),
    ("BadPlace", "", b"0,look\n", b"*,grow,5"),
    ("TooWide", "--workers 64 --updates 13108", b"*,end\n", b"*,grow,16"),
]

# Rows over an empty set, each with how many bytes its line has more than that of `size`.
LONGER = [(11, "range", 0, 1), (4, "weight", 1), (2, "has", 1), (1, "look")]


class Sweeps:
    """Tests of the class `Outside`."""

    def run_each(self, cases):
        """Runs scripts, each a name, the options, the bytes and how the run must end, and asserts that every one ends so."""
        cases = list(cases)
        with concurrent.futures.ThreadPoolExecutor(2 * os.cpu_count()) as pool:
            ended = list(pool.map(lambda case: self.run_on(case[1].split(), case[2]), cases))
        wrong = [(name, *found[1:]) for (name, _, _, wanted), found in zip(cases, ended) if found != wanted]
        assert wrong[:20] == [], f"{len(wrong)} of {len(cases)} runs"
        return len(cases)

    def run_rounds(self, options, rounds):
        """Runs a script of these rounds, whose reports may be long."""
        out, err, status = self.run_on(options.split(), script_of(rounds))
        wanted = b"".join(reports_of(rounds))
        assert (err, status) == (b"", 0), f"behind {out.count(b' end ')} reports, the last of which ends {out[-60:]}"
        assert out == wanted, "not the reports of this script"

    def test_sweep_of_bits_and_lanes(self):
        ran = self.run_each(
            whole(f"{bits} bits, {lanes} lanes", f"--bits {bits} --workers {lanes} --updates {updates}", rounds_of_lanes(bits, lanes))
            for bits in range(1, 17)
            for lanes in range(1, 65)
            for updates in [9 + (bits + 5 * lanes) % 64]
        )
        assert ran == 1024

    def test_sweep_of_updates(self):
        draw = random.Random(1)
        sizes = [(number, 1 + number % 16) for number in numbers(300, 65536)]
        ran = self.run_each(
            whole(f"{updates} updates, {bits} bits", f"--updates {updates} --bits {bits}", [rows])
            for updates, bits in sizes
            for rows in [[any_update(draw, bits) for _ in range(updates)]]
            if updates
        )
        assert ran > 299

    def test_sweep_of_rows(self):
        draw = random.Random(2)
        self.run_rounds("--updates 8193", [[any_row(draw, 4) for _ in range(count)] for count in numbers(400, 8192)])

    def test_sweep_of_rows_in_three_lanes(self):
        draw = random.Random(3)
        self.run_rounds("--workers 3", [[(draw.randrange(3), "rank", draw.randrange(17)) for _ in range(count)] for count in range(300)])

    def test_sweep_of_bytes(self):
        ran = self.run_each(script_of_bytes(size) for size in numbers(2500, 1 << 22))
        assert ran > 2499

    def test_sweep_of_reports_of_each_size(self):
        sizes = [size for size in numbers(2600, 1 << 17) if size >= 100]
        line, end = (lambda number: len(f"{number} 0 size = 0\n")), (lambda number: len(f"{number} end size=0 in=0 out=0\n"))
        rounds = [rows_of_size(line(number), size - end(number)) for number, size in enumerate(sizes, 1)]
        assert [len(report) for report in reports_of(rounds)] == sizes
        self.run_rounds("", rounds)

    def test_sweep_of_rounds(self):
        ran = self.run_each(
            whole(f"{count} rounds", "", [[(0, "insert", number % 16)] for number in range(count)])
            for count in numbers(200, 4096)
        )
        assert ran > 199

    def test_sweep_of_members(self):
        draw = random.Random(4)
        keys = draw.sample(range(512), 512)
        self.run_rounds("--bits 9", [[(0, "insert", key), *queries(9)] for key in keys])

    def test_sweep_of_members_up_to_all(self):
        keys = random.Random(5).sample(range(65536), 65536)
        ends = sorted({*numbers(1, 65536), *range(0, 65536, 4096)})
        rounds = [[*((0, "insert", key) for key in keys[begin:end]), *queries(16)] for begin, end in zip(ends, ends[1:])]
        self.run_rounds("--bits 16 --updates 4096", [*rounds, queries(16)])

    def test_sweep_of_more_bits(self):
        ran = self.run_each(
            whole(f"from {bits} to {more} bits", f"--bits {bits}", [changes, wider])
            for bits in range(1, 17)
            for changes in [[(0, "insert", key) for key in range(min(1 << bits, 64))]]
            for more in range(bits, 17)
            for wider in [[("*", "grow", more), (0, "insert", (1 << more) - 1), *queries(more)]]
        )
        assert ran == 136

    def test_sweep_of_rows_with_a_fault(self):
        ran = self.run_each(
            (f"{name} in row {row}", options.format(row - 1), front * (row - 1) + faulty, (b"", b"augtrie: row %d: %b\n" % (row, name.encode()), 1))
            for name, options, front, faulty in FAULTS
            for row in range(2, 301)
        )
        assert ran == 2691

    def test_sweep_of_faulty_rows(self):
        fault = lambda name: (b"", b"augtrie: row 1: %b\n" % name, 1)
        counts = range(1, 300)
        arguments = [(f"{count} arguments", "", b"0,look" + b",1" * count, fault(b"BadArity")) for count in counts]
        digits = [(f"{count} digits", "", b"0,rank," + b"0" * (9 + count), fault(b"BadNumber")) for count in counts]
        assert self.run_each([*arguments, *digits]) == 598


def whole(name, options, rounds):
    """A run that prints the reports of all rounds."""
    return name, options, script_of(rounds), (b"".join(reports_of(rounds)), b"", 0)


def numbers(every, most):
    """Each number below `every`, and of the greater ones up to `most` those around a power of two."""
    around = {(1 << exponent) + more for exponent in range(most.bit_length()) for more in (-1, 0, 1)}
    return sorted({*range(every), *(it for it in around if every <= it <= most)})


def any_update(draw, bits):
    key = draw.randrange(1 << bits)
    return 0, *draw.choice([("insert", key), ("put", key, draw.randrange(10**9)), ("remove", key)])


def any_row(draw, bits):
    """A row of lane 0 with any verb."""
    key, bound, other = draw.randrange(1 << bits), *(draw.randrange((1 << bits) + 1) for _ in range(2))
    one_key = [("has", key), ("weight", key), ("look",), ("size",)]
    bounds = [("rank", bound), ("select", bound), ("before", bound), ("after", bound), ("range", bound, other)]
    return draw.choice([any_update(draw, bits), (0, *draw.choice(one_key)), (0, *draw.choice(bounds))])


def queries(bits, lane=0):
    """Rows that ask for what a set of these bits comes to."""
    top = 1 << bits
    asked = ("look",), ("size",), ("rank", top), ("select", 1), ("before", top), ("after", 0), ("range", 0, top)
    return [(lane, *row) for row in asked]


def rounds_of_lanes(bits, lanes):
    """A round in which each lane changes up to three keys of its own, and one in which all ask and none changes any."""
    changes = []
    for key in range(min(3 * lanes, 1 << bits)):
        own = ("insert", key), ("put", key, 7 * key), ("look",), ("weight", key), *[("remove", key), ("look",), ("has", key)] * (key % 2)
        changes += [(key % lanes, *row) for row in own]
    return [changes, [row for lane in range(lanes) for row in queries(bits, lane)]]


def rows_of_size(least, size):
    """Rows of lane 0 over an empty set whose lines have so many bytes in all, where that of `size` has the least."""
    count, rest = divmod(size, least)
    rows = []
    for more, *row in LONGER:
        rows += [(0, *row)] * (rest // more)
        rest %= more
    return rows + [(0, "size")] * (count - len(rows))


def script_of_bytes(size):
    """A run of a script of so many bytes, of which blank lines are the last."""
    count = min(size // 7, 400)
    report = b"1 0 size = 0\n" * count + b"1 end size=0 in=0 out=0\n" * bool(count)
    return f"{size} bytes", "", (b"0,size\n" * count).ljust(size, b"\n"), (report, b"", 0)
