"""What the module has of its own: numbers and iterables of Python, exceptions, snapshots that end in many ways, threads, signals and what waits. What each call
answers is in tests/rows, which test_rows.py plays. The last line is 'N passed, M failed'."""

import array
import ast
import contextlib
import copy
import gc
import itertools
import os
import pickle
import random
import signal
import subprocess
import sys
import threading
import time
import timeit
import traceback

import augtrie
from augtrie import Trie
from test_rows import shows

TESTS = []

# With so few bytes, the fewest for four users, a round is over after some updates, and a new one waits for the looks of two earlier ones.
SMALL = {"bits": 4, "users": 4, "bytes": 126_000}


def test(function):
    TESTS.append(function)
    return function


def raises(kind, call, *arguments, **named):
    """The exception of a kind that a call raises, if it does."""
    try:
        call(*arguments, **named)
    except kind as fault:
        return fault
    return None


def message(kind, call, *arguments, **named):
    """What the exception of a call says, which is of exactly this kind."""
    fault = raises(kind, call, *arguments, **named)
    assert type(fault) is kind
    return str(fault)


def at_once(*calls):
    """Starts a thread for each call. What ends them all, and gives what they gave or raised."""
    found = [None] * len(calls)

    def work(at):
        try:
            found[at] = calls[at]()
        except BaseException as fault:
            found[at] = fault

    threads = [threading.Thread(target=work, args=(at,), daemon=True) for at in range(len(calls))]
    for thread in threads:
        thread.start()

    def ended():
        for thread in threads:
            thread.join(60)
            assert not thread.is_alive()
        return found

    return ended


def all_at_once(*calls):
    found = at_once(*calls)()
    assert not any(isinstance(it, BaseException) for it in found), found
    return found


def elsewhere(call):
    """What a call gives, or raises, on a thread of its own."""
    return at_once(call)()[0]


def until(condition):
    """Waits for what another thread does."""
    for _ in range(20_000):
        if condition():
            return
        time.sleep(0.001)
    raise AssertionError("it did not come")


@contextlib.contextmanager
def beside(call, seconds=None):
    """Meanwhile another thread has made a call, which gives this, and lives: so a snapshot stays that it took. It ends by itself after so many seconds."""
    told, let = [], threading.Event()

    def work():
        told.append(call())
        let.wait(seconds)

    ended = at_once(work)
    until(lambda: told)
    try:
        yield told[0]
    finally:
        let.set()
        assert ended() == [None]


# ---- One thread ----


@test
def a_trie_is_asked_as_its_snapshot_is_and_by_any_number():
    for bits in (1, 4, 10):
        with Trie(bits) as trie:
            for members in ([], sorted({key * 40503 % (1 << bits): key for key in range(60)}.items())):
                trie.update(dict(members))
                ask_oddly(trie, members)
                with trie.snapshot() as now:
                    ask_oddly(now, members)


def ask_oddly(now, members):
    """Holds what a trie or snapshot answers to its members, and asks it of numbers that are no keys."""
    shows(now, members)
    keys, total = [it[0] for it in members], sum(it[1] for it in members)
    odd = [-1, -(1 << 70), 1 << 16, 1 << 32, 1 << 64, 1 << 70]
    for key in odd:
        below = len(keys) if key > 0 else 0
        assert key not in now and now.weight(key) is None and now.bisect_left(key) == now.bisect_right(key) == below and raises(ValueError, now.index, key)
        assert now.before(key) == (keys[-1] if below else None) and now.after(key) == (None if below or not keys else keys[0])
        assert now.total(key, 1 << 71) == (0 if key > 0 else total) and now.span(-(1 << 71), key).count == below
        assert now.select_by_weight(key) == (None if key > 0 or not keys else keys[0])
    assert now.rank_all(odd) == [0, 0] + [len(keys)] * 4 and now.has_all(odd) == [False] * 6 and now.weights(odd) == [None] * 6
    for index in (len(keys), -len(keys) - 1, 1 << 70):
        assert raises(IndexError, lambda: now[index]) and raises(IndexError, now.peekitem, index)


@test
def a_part_is_listed_both_ways():
    rng = random.Random(2)
    for count in (0, 1, 3, 4, 5, 255, 256, 257, 700):
        with Trie(10) as trie:
            members = sorted(rng.sample(range(1024), count))
            assert trie.put_all(members, [3 * it for it in members]) == count
            assert trie[:] == members and trie[5:300:7] == members[5:300:7] and trie[::-1] == members[::-1] and trie[-9:-2] == members[-9:-2]
            for _ in range(60):
                low, high = (rng.choice((None, -3, 2000, rng.randrange(1024), *members[:3], *members[-3:])) for _ in range(2))
                closed = rng.random() < 0.5, rng.random() < 0.5
                above = lambda it: low is None or (low <= it if closed[0] else low < it)
                below = lambda it: high is None or (it <= high if closed[1] else it < high)
                for reverse in (False, True):
                    want = [it for it in members if above(it) and below(it)][:: -1 if reverse else 1]
                    assert list(trie.irange(low, high, closed, reverse)) == want
                    assert list(trie.items(low, high, inclusive=closed, reverse=reverse)) == [(it, 3 * it) for it in want]


@test
def a_loop_may_change_what_it_lists():
    with Trie(10) as trie:
        trie.update(range(0, 1024, 2))
        with trie.snapshot() as now:
            walk = iter(now)
            assert next(walk) == 0 and elsewhere(lambda: trie.update(range(1024))) == 512 and list(walk) == list(range(2, 1024, 2))
        seen = []
        for key in trie:
            seen.append(key)
            assert trie.discard(key)
        assert seen == list(range(1024)) and len(trie) == 0


@test
def amounts_stay_within_a_weight():
    most = (1 << 32) - 1
    with Trie(4) as trie:
        assert trie.increment(3, 0) == trie.decrement(3, 0) == len(trie) == 0 and (trie.increment(3), trie.decrement(3), 3 in trie) == (1, 0, False)
        assert raises(ValueError, trie.decrement, 3) and trie.put(3, 0) is None and trie.put(3, most) == trie.decrement(3, most) == 0
        assert trie.put(3, most) is None and raises(OverflowError, trie.increment, 3)
        for call, number in itertools.product((trie.put, trie.increment, trie.decrement), (-1, 1 << 32, 1 << 70)):
            assert raises(ValueError, call, 3, number)
        assert trie.weight(3) == most


@test
def a_key_is_popped_as_from_a_dict():
    model = {3: 30, 5: 0, 7: 70}
    with Trie(4) as trie:
        trie.update(model)
        for key, default in itertools.product((3, 5, 0, 15, 16, -1, 1 << 32, 1 << 70), ((), (None,), (0,), (trie,))):
            if key in model or default:
                assert trie.pop(key, *default) == model.pop(key, *default)
            else:
                assert raises(KeyError, trie.pop, key).args == (key,)
        assert raises(TypeError, trie.pop) and raises(TypeError, trie.pop, 7, 1, 2) and raises(TypeError, trie.pop, 7, default=1)
        assert list(trie.items()) == [(7, 70)] and trie.pop(Number(7), None) == 70
    assert raises(augtrie.Closed, trie.pop, 7, None)


class Number:
    """What has an index, and does something when that is read."""

    def __init__(self, value, act=int):
        self.value, self.act = value, act

    def __index__(self):
        self.act()
        return self.value


@test
def names_and_iterables_are_as_in_sortedcontainers():
    with Trie(6) as trie:
        assert trie.update() == 0 and trie.difference_update() == 0
        assert trie.update([3, 5], {5: 1, 9: 1}, iter(range(20, 24))) == 7 and list(trie) == [3, 5, 9, 20, 21, 22, 23]
        assert trie.difference_update((3, 4), [20], {22}) == 3 and list(trie) == [5, 9, 21, 23]
        assert raises(augtrie.BadKey, trie.update, [1], [64]) and raises(TypeError, trie.update, [1], 2) and raises(TypeError, trie.update, [1], b"2")
        assert list(trie) == [5, 9, 21, 23]
        assert trie.peekitem(index=1) == (9, 1) and trie.peekitem(index=-2) == (21, 21) and raises(IndexError, trie.peekitem, index=4)
        assert trie.popitem(index=0) == (5, 1) and trie.popitem(index=-1) == (23, 23) and raises(IndexError, trie.popitem, index=1)
        assert raises(TypeError, trie.popitem, place=0) and raises(TypeError, trie.peekitem, 0, index=0)
        wide, signed = memoryview(array.array("I", [7, 8, 9])), memoryview(array.array("q", [9, -1, 70, 7]))
        assert trie.update(wide) == 2 and trie.has_all(wide) == [True] * 3 and trie.has_all(signed) == [True, False, False, True]
        assert raises(augtrie.BadKey, trie.update, signed) and raises(TypeError, trie.update, memoryview(array.array("d", [1.0])))
        assert list(trie) == [7, 8, 9, 21]
        assert trie.put_all((1, 2), iter([30, 40])) == 2 and trie.difference_update([7, 9, -1, 1 << 20]) == 2 and trie.weights([1, 2, 7]) == [30, 40, None]
        assert raises(augtrie.BadKey, trie.put_all, [3, -1], [1, 1]) and raises(augtrie.BadLength, trie.put_all, [3], [1, 2]) and list(trie) == [1, 2, 8, 21]
        # More than there are keys.
        assert trie.update(it % 64 for it in range(20_000)) == 60 and trie.has_all([3, 64] * 9000) == [True, False] * 9000
        assert trie.difference_update(range(10_000)) == 64 and len(trie) == 0


@test
def what_has_an_index_is_a_number():
    with Trie(Number(7), users=Number(7), bytes=1 << 20) as trie:
        assert trie.bits == 7 and trie.add(Number(7)) and not trie.add(7) and trie.put(True, Number(7)) is None
        assert trie.update(iter([Number(7), 9])) == 1 and Number(7) in trie and trie.total(True, Number(7)) == 7 and trie[True] == 7
        now = trie.snapshot()
        for no_number in (7.0, "7", b"7", None, [7]):
            for call in (now.weight, now.bisect_left, now.bisect_right, now.before, now.after, now.index, now.__contains__, now.__getitem__,
                         trie.add, trie.discard, trie.remove, trie.pop, trie.increment, Trie, lambda it: now.total(1, it), lambda it: now.span(it, 1),
                         lambda it: trie.put(1, it), lambda it: trie.decrement(it, 1), lambda it: trie.update([1, it]),
                         lambda it: Trie(4, it), lambda it: now.weights([it]), now.peekitem, lambda it: now.items(it or ())):
                assert raises(TypeError, call, no_number), (call, no_number)
        for no_numbers in (b"12", bytearray(b"12"), memoryview(b"12"), "12", 12):
            for call in (trie.update, trie.difference_update, now.rank_all, now.has_all, now.weights, lambda it: trie.put_all([1, 2], it)):
                assert raises(TypeError, call, no_numbers)
        now.close()
        assert list(trie) == [1, 7, 9]


@test
def what_is_no_key_is_not_in():
    with Trie(4) as trie:
        assert trie.add(3) and trie.remove(3) is None
        for key in (3, 16, -1, 1 << 32, 1 << 70):
            assert trie.discard(key) is False and raises(KeyError, trie.remove, key).args == (key,)
    for call in (lambda: trie.discard(-1), lambda: trie.remove(3), lambda: len(trie), lambda: list(trie), lambda: trie[:], trie.__enter__):
        assert raises(augtrie.Closed, call)


# ---- Snapshots ----


@test
def a_list_may_be_any_iterable_of_pairs():
    with Trie(7, users=1) as trie:
        trie.put_all([1, 2], [5, 6])
        with trie.snapshot() as now:
            for kept in ([(2, 6), (3, 7)], iter([(2, 6), (3, 7)]), {2: 6, 3: 7}.items()):
                walk = now.changes_since(kept)
                assert list(walk) == [(1, None, 5), (3, 7, None)] and list(walk) == []
            assert list(now.changes_since(now.items())) == []
            walk = now.changes_since([])
            now.renew()
            assert raises(RuntimeError, next, walk) and raises(augtrie.BadKey, now.changes_since, [(-1, 1)])
            assert raises(ValueError, now.changes_since, [(1, 2, 3)]) and raises(ValueError, now.changes_since, [(1, -1)])
            assert raises(TypeError, now.changes_since, 5) and raises(TypeError, now.changes_since, [5]) and raises(TypeError, now.changes_since)
        assert raises(augtrie.NotLooking, now.changes_since, []) and trie.tend() is False


@test
def changes_are_those_of_one_renewal():
    with Trie(8, users=2, bytes=3 << 21) as trie:
        now = trie.snapshot()
        elsewhere(lambda: trie.update(range(100)))
        now.renew()
        one, other, last = now.changes(), now.changes(), now.changes()
        assert next(one) == (0, None, 0) and len(list(other)) == 100 and list(other) == [] and [next(last)[0] for _ in range(40)] == list(range(40))
        elsewhere(lambda: trie.difference_update(range(50)))
        now.renew()
        for walk in (one, last):
            assert raises(RuntimeError, next, walk) and raises(RuntimeError, next, walk)
        walk = now.changes()
        assert list(other) == [] and next(walk) == (0, 0, None)
        now.close()
        # What was listed is told.
        assert [next(walk)[0] for _ in range(31)] == list(range(1, 32)) and raises(augtrie.NotLooking, next, walk) and not hasattr(trie, "changes")


@test
def who_holds_a_snapshot_asks_it_alone():
    with Trie(4) as trie:
        trie.add(1)
        with trie.snapshot() as now:
            for call in (trie.snapshot, lambda: len(trie), lambda: 1 in trie, lambda: list(trie), lambda: trie[0], lambda: trie.weights([1])):
                assert raises(augtrie.Looking, call)
            assert elsewhere(lambda: (trie.add(2), len(trie), len(now))) == (True, 2, 1) and now.__enter__() is now
        assert len(trie) == 2 and raises(augtrie.NotLooking, now.__enter__) and now.close() is None


@test
def a_thread_updates_while_others_ask_its_snapshot():
    with Trie(16, users=4) as trie:
        members = list(range(0, 1 << 16, 2))
        trie.update(members)
        keys, want, odd = range(1 << 16), [(key + 1) // 2 for key in range(1 << 16)], list(range(1, 2000, 2))
        for _ in range(5):
            told, let, together = [], threading.Event(), threading.Barrier(2)

            def work():
                told.append(trie.snapshot())
                # More than a round has.
                for _ in range(16):
                    assert trie.update(odd) == trie.difference_update(odd) == 1000
                let.set()
                until(lambda: not told)
                return len(trie)

            def ask():
                until(lambda: told)
                while not let.is_set():
                    assert told[0].rank_all(keys) == want and len(told[0]) == 1 << 15 and told[0][::2] == members[::2]
                together.wait(30)
                told.clear()

            assert all_at_once(work, ask, ask)[0] == 1 << 15


@test
def a_snapshot_outlives_the_end_of_its_trie():
    trie = Trie(10)
    trie.update(range(100))
    now = trie.snapshot()
    assert elsewhere(trie.close) == (100, 0, 100)
    for _ in range(2):
        assert raises(augtrie.Closed, now.renew) and len(now) == elsewhere(lambda: len(now)) == 100 and now[::2] == list(range(0, 100, 2))
        assert now.rank_all(range(1024)) == [min(key, 100) for key in range(1024)]
    del trie
    gc.collect()
    assert len(now) == 100 and now.close() is None and raises(augtrie.NotLooking, len, now)
    # With the thread that took it.
    trie, held = Trie(4), []
    assert elsewhere(lambda: (held.append(trie.snapshot()), trie.close(), len(held[0]))) == (None, (0, 0, 0), 0)
    assert raises(augtrie.NotLooking, len, held[0])
    # And with its last reference, once nothing refers to the trie.
    now = Trie(4).snapshot()
    gc.collect()
    assert len(now) == 0


@test
def a_snapshot_ends_in_each_way():
    with Trie(4) as trie:
        def raising():
            with trie.snapshot():
                raise KeyError("mine")

        def cycle():
            ring = [trie.snapshot()]
            ring.append(ring)

        ends = [raising, cycle, lambda: trie.snapshot().close(), lambda: elsewhere(trie.snapshot).close(), trie.snapshot]
        for at, end in enumerate(ends):
            assert bool(raises(KeyError, end)) == (end is raising)
            gc.collect()
            assert trie.add(at)
        # With its last reference, on another thread, while an update is on.
        for _ in range(5):
            held = [trie.snapshot()]
            ended = at_once(lambda: (time.sleep(0.005), held.clear()))
            while held:
                trie.update([9] * 4096)
            assert ended() == [(None, None)] and len(trie) == 6


@test
def a_snapshot_ends_while_another_thread_asks_it():
    with Trie(16, users=2) as trie:
        trie.update(range(0, 1 << 16, 2))
        # It is closed, or its thread ends.
        for end in (augtrie.Snapshot.close, lambda now: None) * 5:
            told = []

            def take():
                told.append(trie.snapshot())
                time.sleep(0.002)
                end(told[0])

            def ask():
                until(lambda: told)
                return told[0].rank_all(range(1 << 16))

            answer = at_once(take, ask)()[1]
            assert isinstance(answer, augtrie.NotLooking) or answer == [(key + 1) // 2 for key in range(1 << 16)]
            assert raises(augtrie.NotLooking, len, told[0]) and elsewhere(lambda: trie.add(2)) is False


# ---- Threads ----


@test
def threads_come_and_go():
    with Trie(10, users=4) as trie:
        together = threading.Barrier(3)

        def work(key):
            together.wait()
            trie.add(key)
            together.wait()
            return trie.weight(key)

        for group in range(0, 180, 3):
            assert all_at_once(*(lambda key=group + it: work(key) for it in range(3))) == [group, group + 1, group + 2]
        assert len(trie) == 180
        # One more than there are users: this thread has one.
        with beside(trie.room), beside(lambda: len(trie)), beside(lambda: trie.add(500)):
            assert isinstance(elsewhere(lambda: len(trie)), augtrie.NoUser)
        assert elsewhere(lambda: len(trie)) == 181


@test
def updates_are_made_while_others_change_their_key():
    # Only calls for many keys run beside others: those for one have the interpreter's lock, which is given away often here.
    many, let, interval = [5] * 4096, threading.Event(), sys.getswitchinterval()
    with Trie(16, users=5) as trie:
        def put_on():
            while not let.is_set():
                assert trie.put_all(many, [8, 16] * 2048) == 4096

        def one():
            for _ in range(12_000):
                assert trie.increment(5, 1 << 20) >= 1 << 20
                trie.put(5, 8)
                assert trie.decrement(5) % 2 == 1 and trie.pop(5) > 0
                trie.put(5, 8)
                assert trie.popitem()[0] == 5

        sys.setswitchinterval(1e-5)
        ended = at_once(put_on, put_on, put_on)
        try:
            one()
        finally:
            let.set()
            sys.setswitchinterval(interval)
        assert ended() == [None] * 3
        steps = [range(6, 1 << 16, step) for step in (2, 3, 4, 5)]
        assert sum(all_at_once(*(lambda keys=keys: trie.update(keys) for keys in steps))) == len(set().union(*steps))


# ---- What waits ----


def fill(trie, made, updates=4000):
    """Makes updates that fill the table again and again. How many were made is told meanwhile."""
    for at in range(updates):
        trie.increment(at % 8)
        made.append(at)


@contextlib.contextmanager
def an_old_snapshot(trie):
    """Meanwhile another thread has a snapshot of an earlier round."""
    with beside(trie.snapshot):
        # The last of these, which change nothing, begins a new round.
        for _ in range(trie.room() + 1):
            assert trie.discard(0) is False
        yield


@contextlib.contextmanager
def an_alarm(handle):
    """Meanwhile, in some time, a signal comes, which this handles."""
    before = signal.signal(signal.SIGALRM, handle)
    signal.setitimer(signal.ITIMER_REAL, 0.2)
    try:
        yield
    finally:
        signal.setitimer(signal.ITIMER_REAL, 0)
        signal.signal(signal.SIGALRM, before)


@test
def updates_wait_for_snapshots_of_two_earlier_rounds_and_go_on():
    with Trie(**SMALL) as trie, an_old_snapshot(trie):
        for end in (lambda now: now.close(), lambda now: now.__exit__(None, None, None)):
            before = sum(weight or 0 for weight in trie.weights(range(8)))
            now, made, count = trie.snapshot(), [], -1
            ended = at_once(*[lambda: fill(trie, made)] * 2)
            while not made or count != len(made):
                count = len(made)
                time.sleep(0.2)
            # This thread goes on meanwhile, and its snapshot is as it was.
            assert count < 8000 and now.total(0, 16) == before
            end(now)
            assert ended() == [None, None] and trie.total(0, 16) == before + 8000


@test
def who_waits_lets_others_run():
    for wait in (lambda trie: fill(trie, []), lambda trie: trie.put_all([it % 8 for it in range(4000)], [7] * 4000),
                 lambda trie: [trie.add(it % 8) or trie.discard(it % 8) or len(trie) for it in range(4000)]):
        with Trie(**SMALL) as trie, an_old_snapshot(trie), beside(trie.snapshot, 0.1) as now:
            wait(trie)
            until(lambda: raises(augtrie.NotLooking, len, now))


def waits_of_updates(seconds, read, update, yardstick):
    """How long nine of ten of those updates took at most that took over a millisecond, and the longest yardstick, one of these after ten of those, while
    three threads read again and again."""
    end, took = time.monotonic() + seconds, ([0], [0])

    def read_on():
        while time.monotonic() < end:
            read()

    ended = at_once(read_on, read_on, read_on)
    while time.monotonic() < end:
        for at in [0] * 10 + [1]:
            begin = time.monotonic()
            (update, yardstick)[at]()
            took[at].append(time.monotonic() - begin)
    assert ended() == [None] * 3
    waits = sorted(it for it in took[0] if it > 0.001) or [0]
    return waits[len(waits) * 9 // 10], max(took[1])


@test
def updates_do_not_wait_long_for_those_that_look_again_and_again():
    with Trie(**SMALL) as trie, Trie(12, users=4, bytes=3 << 19) as large, Trie(4, users=1) as unread:

        def with_snapshot():
            with trie.snapshot():
                time.sleep(0.001)

        def with_reference():
            now = trie.snapshot()
            time.sleep(0.001)
            assert len(now) == 1

        def in_time(seconds):
            # For so many keys the yardstick gives the interpreter's lock away, as an update does that waits. It says for how long a thread stands still here.
            told.append((seconds, *waits_of_updates(seconds, read, lambda: of.increment(3), lambda: unread.put_all([3] * 65, [3] * 65))))
            # A measurement no longer than twice what is allowed says nothing, since an update that waits is made when it ends.
            return told[-1][1] <= 0.1 + 4 * told[-1][2] <= seconds / 2

        keys = list(range(4096))
        trie.add(3)
        large.update(keys)
        for read, of in ((with_snapshot, trie), (with_reference, trie), (lambda: large.rank_all(keys), large), (lambda: large[:], large)):
            told = []
            assert any(in_time(seconds) for seconds in (1, 2, 4, 8, 16)), told


@test
def a_wait_can_be_interrupted():
    for call in (lambda trie: fill(trie, [], 1 << 40), lambda trie: [trie.put_all([3] * 5000, range(5000)) for _ in itertools.count()]):
        with Trie(**SMALL) as trie, an_old_snapshot(trie):
            with beside(trie.snapshot), an_alarm(signal.default_int_handler):
                assert raises(KeyboardInterrupt, call, trie)
            # The user is not in the call any longer.
            assert trie.put(9, 9) is None and trie.pop(9) == 9 and len(list(trie)) >= 1


@test
def a_handler_of_a_signal_may_call_what_it_interrupts():
    # What the handler does, and how the call ends that waited.
    for act, fault in ((lambda trie, now: now.close(), None), (lambda trie, now: trie.close(), augtrie.Closed)):
        trie, handled = Trie(**SMALL), []
        with an_old_snapshot(trie), beside(trie.snapshot) as now, an_alarm(lambda *_: handled.append(act(trie, now))):
            try:
                while not handled:
                    trie.increment(3)
                for _ in range(1000):
                    trie.increment(3)
                assert fault is None
            except augtrie.Closed:
                assert fault is augtrie.Closed
        trie.close()


@test
def a_trie_is_closed_in_mid_use():
    for turn in range(5):
        trie = Trie(16, users=5)
        trie.update(range(0, 1 << 16, 2))
        told = []

        def again_and_again(*calls):
            while True:
                for call in calls:
                    call()

        def ask():
            with trie.snapshot() as now:
                told.append(now)
                members = len(now)
                while True:
                    assert now.rank_all(range(1 << 16)) and len(now[:]) == members
                    # Not the snapshot, but its trie is closed.
                    trie.room()

        # This may wait for the snapshots, where they are of two rounds.
        update = lambda: again_and_again(lambda: trie.difference_update(range(1 << 16)), lambda: trie.update(range(1 << 16)))
        ended = at_once(update, lambda: again_and_again(lambda: trie.increment(7)), ask, ask)
        until(lambda: len(told) == 2)
        time.sleep(0.05 * turn)
        report = trie.close()
        found = ended()
        assert [type(it) for it in found] == [augtrie.Closed] * 4, found
        assert all(raises(augtrie.NotLooking, len, now) for now in told)
        assert report == trie.close() and report.inserts - report.removals == report.size


# ---- What callers do in between ----


def fail():
    raise KeyError("mine")


@test
def exceptions_of_the_caller_leave_nothing_behind():
    with Trie(4) as trie:
        def numbers():
            yield 1
            fail()

        bad = Number(5, fail)
        for call in (lambda: trie.update(numbers()), lambda: trie.difference_update([0, bad]), lambda: trie.put_all([1], [bad]), lambda: trie.add(bad),
                     lambda: trie.increment(1, bad), lambda: bad in trie, lambda: trie[bad], lambda: trie[bad:], lambda: trie.weights([1, bad]),
                     lambda: trie.irange(bad), lambda: trie.total(0, bad), lambda: Trie(4, bad), lambda: trie.remove(bad), lambda: trie.pop(bad, 0)):
            assert raises(KeyError, call) and len(trie) == 0 and trie.add(0) and trie.discard(0)


@test
def a_number_may_call_the_trie_that_reads_it():
    with Trie(4) as trie:
        again = Number(5, lambda: (trie.add(6), trie.discard(6), len(trie)))
        assert trie.add(again) and trie.update([again, 1]) == 1 and again in trie and trie.weights([again]) == [5] and trie[again:] == []
        assert trie.increment(again, again) == trie.weight(5) == 10 and list(trie.irange(again)) == [5]
        held = []
        assert raises(augtrie.Looking, trie.weight, Number(5, lambda: held.append(trie.snapshot())))
        held.clear()
        assert trie.discard(Number(5, lambda: held.append(trie.snapshot()))) and 5 in held[0]
        held.clear()
        assert raises(augtrie.Closed, trie.update, [1, Number(5, trie.close)])


@test
def finalizers_may_call_the_trie():
    with Trie(6) as trie:
        calls = []

        class Last:
            def __init__(self):
                self.ring = self

            def __del__(self):
                trie.increment(1)
                calls.append(len(trie))

        gc.set_threshold(5)
        try:
            for turn in range(400):
                Last()
                trie.update(range(turn % 64))
                list(trie.items())
                trie[:]
                elsewhere(lambda: trie.add(turn % 64))
        finally:
            gc.set_threshold(700, 10, 10)
        gc.collect()
        assert len(calls) > 100


@test
def a_forked_child_may_not_use_it():
    with Trie(4) as trie, Trie(4) as other:
        trie.add(1)
        now = other.snapshot()
        child = os.fork()
        if child == 0:
            status = 1
            try:
                with trie:
                    pass
            except augtrie.Closed:
                with Trie(4) as own:
                    refused = [raises(augtrie.Closed, call) for call in (lambda: trie.add(3), lambda: len(now), trie.close, trie.snapshot)]
                    now.close()
                    status = 0 if all(refused) and own.add(3) and trie.__exit__(None, None, None) is None else 2
            finally:
                del now, trie, other
                os._exit(status)
        assert os.waitpid(child, 0)[1] == 0
        assert trie.add(3) and len(now) == 0


# ---- What is left, and what it costs ----


def resident():
    """The bytes of the process that are in memory."""
    with open("/proc/self/statm", encoding="ascii") as file:
        return int(file.read().split()[1]) * os.sysconf("SC_PAGE_SIZE")


@test
def nothing_is_leaked():
    if not os.path.exists("/proc/self/statm"):
        return
    shared = Trie(14, users=3)

    def many():
        with Trie(14) as trie:
            trie.update(range(100))
            trie.snapshot()
            now = trie.snapshot()
        assert len(now) == 100
        # Forgotten in a ring.
        trie = Trie(14)
        held = trie.snapshot()
        ring = [held, held.changes()]
        ring.append(ring)
        elsewhere(lambda: trie.add(1))
        for _ in range(4):
            elsewhere(lambda: (shared.update(range(900)), shared.difference_update(range(900)), shared.weights(range(9000)), shared.snapshot()))
        assert raises(augtrie.BadBits, Trie, 17) and raises(augtrie.BadKey, shared.update, [1 << 20] * 9000)
        with Trie(14) as trie, trie.snapshot() as now:
            iter(now)
            raise KeyError("mine")

    # Of these a thread keeps nothing while it lives.
    def small():
        for _ in range(250):
            Trie(4, users=2, bytes=1 << 16).add(3)

    for spoil, most in ((many, 20), (small, 3)):
        sizes = []
        for _ in range(40):
            assert bool(raises(KeyError, spoil)) == (spoil is many)
            gc.collect()
            sizes.append(resident())
        assert sizes[-1] - sizes[9] < most << 20, (spoil.__name__, sizes[9], sizes[-1])
    shared.close()


@test
def want_of_memory_has_a_name_and_harms_nobody():
    code = """
import resource
import augtrie
trie = augtrie.Trie(4)
# The table below takes 128 MB twice.
with open("/proc/self/statm", encoding="ascii") as file:
    most = int(file.read().split()[0]) * resource.getpagesize() + (100 << 20)
resource.setrlimit(resource.RLIMIT_AS, (most, most))
for _ in range(3):
    try:
        augtrie.Trie(16, bytes=128 << 20)
        print("there was room")
    except MemoryError as error:
        print(type(error).__name__, error)
    trie.add(7)
print(list(trie))
"""
    assert subprocess.check_output([sys.executable, "-c", code], text=True) == 3 * "NoMemory a request for memory was refused\n" + "[7]\n"


@test
def nothing_is_copied_or_pickled_or_made_by_hand():
    with Trie(4) as trie:
        now = trie.snapshot()
        for shared in (trie, now, iter(now), now.changes()):
            assert raises(TypeError, copy.copy, shared) and raises(TypeError, copy.deepcopy, shared), shared
            assert all(raises(TypeError, pickle.dumps, shared, protocol) for protocol in range(pickle.HIGHEST_PROTOCOL + 1)), shared
            assert raises(TypeError, type, "Below", (type(shared),), {}), shared
            assert shared is trie or raises(TypeError, type(shared)), shared
        assert raises(TypeError, augtrie.Members) and raises(TypeError, type("Below", (augtrie.Members,), {}))
        span = now.span(0, 16)
    assert copy.copy(span) == span == pickle.loads(pickle.dumps(span)) == (0, 0, 0, 0)


@test
def the_stubs_have_each_name():
    with open(os.path.join(os.path.dirname(augtrie.__file__), "__init__.pyi"), encoding="utf-8") as file:
        stubs = {item.name: item for item in ast.parse(file.read()).body if isinstance(item, ast.ClassDef)}
    assert set(stubs) == set(augtrie.__all__)
    for name, stub in stubs.items():
        kind = getattr(augtrie, name)
        assert [base.id for base in stub.bases if isinstance(base, ast.Name)] in ([base.__name__ for base in kind.__bases__], []), name
        told = {item.name for item in stub.body if isinstance(item, ast.FunctionDef)}
        own = {word for word in vars(kind) if not word.startswith("__")} - {"n_fields", "n_sequence_fields", "n_unnamed_fields"}
        assert {word for word in told if not word.startswith("__")} == own, name
        assert all(hasattr(kind, word) for word in told), name


@test
def a_call_takes_microseconds():
    with Trie(16) as trie:
        trie.update(range(0, 1 << 16, 2))
        now = trie.snapshot()
        asks = {"in": lambda: 1000 in now, "[i]": lambda: now[1000], "bisect_left": lambda: now.bisect_left(1001), "total": lambda: now.total(5, 30_000)}
        changes = {"add and discard": lambda: (trie.add(1001), trie.discard(1001)), "put": lambda: trie.put(1000, 3),
                   "increment": lambda: trie.increment(1000), "in the trie": lambda: now.close() or 1000 in trie}
        for name, call in {**asks, **changes}.items():
            took = min(timeit.repeat(call, number=200, repeat=25)) / 200 * 1e6
            print(f"{name}: {took:.2f} microseconds")
            assert took < 500, name


# ---- What callers are told ----


@test
def exceptions_name_what_was_wrong():
    assert all(message(augtrie.BadBits, Trie, bits) == f"{bits} bits are outside 1 to 16" for bits in (17, 0, -1, 1 << 40, 1 << 70))
    assert all(message(augtrie.BadUsers, Trie, 4, users) == f"{users} users are outside 1 to 64" for users in (65, 0, -1, 1 << 40))
    for bytes in (0, -1, 12_978_287):
        assert message(augtrie.BadBytes, Trie, 16, bytes=bytes) == f"of {bytes} bytes, 12978288 are needed for 16 bits and 16 users"
    assert message(augtrie.BadBytes, Trie, 1, 64, 493_367) == "of 493367 bytes, 493368 are needed for 1 bits and 64 users"
    assert all(message(augtrie.BadBytes, Trie, 16, bytes=bytes) == f"{bytes} bytes are more than 3 * 2^29" for bytes in ((3 << 29) + 1, 1 << 70))
    with Trie(16, users=1) as trie:
        for key in (70_000, -1, 1 << 70):
            bad = f"key {key} is not below 2^16"
            for call in (trie.add, trie.increment, trie.decrement, lambda it: trie.put(it, 1), lambda it: trie.update([1], [2, it, -5]),
                         lambda it: trie.put_all([it], [1]), lambda it: trie.update({it: 7})):
                assert message(augtrie.BadKey, call, key) == bad and raises(ValueError, call, key), call
        assert str(elsewhere(lambda: trie.add(1))) == "all 1 users of the trie are open" and len(trie) == 0
        assert message(augtrie.BadLength, trie.put_all, [1, 2, 3], [4]) == "there are 3 keys and 1 weights"
        assert message(ValueError, trie.put, 1, -3) == "a weight or an amount is a number of 32 bits, and -3 is none"
        with trie.snapshot() as now:
            assert message(augtrie.BadLength, now.changes_since, [(1, 1)] * 65_537) == "65537 members are more than there are keys below 2^16"
            assert message(augtrie.BadKey, now.changes_since, [(1, 1), (-7, 1)]) == "key -7 is not below 2^16"
            assert message(augtrie.BadKey, now.changes_since, [(1, 1), (9, 1), (9, 1)]) == "key 9 is not above the one before it in the list"
            assert message(augtrie.Looking, trie.snapshot) == augtrie.Looking.__doc__ == "this thread has a snapshot, which has to be closed first"
        assert message(augtrie.NotLooking, len, now) == augtrie.NotLooking.__doc__ == "the snapshot has ended"
    assert message(augtrie.Closed, len, trie) == augtrie.Closed.__doc__ and "look" not in augtrie.Closed.__doc__
    # Without docstrings too.
    code = "import augtrie\ntry: augtrie.Trie(17)\nexcept augtrie.BadBits as error: print(error)"
    for option in ("-O", "-OO"):
        assert subprocess.check_output([sys.executable, option, "-c", code], text=True) == "17 bits are outside 1 to 16\n"


@test
def a_snapshot_says_that_it_has_nothing_to_be_compared_with():
    with Trie(**SMALL) as trie:
        now = trie.snapshot()
        walk = now.changes()
        assert elsewhere(lambda: [trie.put(3, it) for it in range(1000)][-1]) == 998 and now.renew() is False
        assert "use changes_since" in message(augtrie.NothingToCompare, now.changes) and raises(RuntimeError, next, walk)
        assert list(now.changes_since([])) == [(3, None, 999)]
        assert elsewhere(lambda: trie.put(3, 5)) == 999
        # Until it is renewed within a round.
        while not now.renew():
            assert raises(augtrie.NothingToCompare, now.changes)
        assert elsewhere(lambda: trie.put(3, 6)) == 5 and now.renew() is True and list(now.changes()) == [(3, 5, 6)]


class Weights:
    """A mapping for `dict.update`, and for nobody else."""

    def keys(self):
        return iter([3, 4])

    def __getitem__(self, key):
        return 10 * key


@test
def an_update_by_a_mapping_takes_its_weights():
    with Trie(4) as trie:
        assert trie.update({1: 5, 2: 0}) == 2 and dict(trie.items()) == {1: 5, 2: 0}
        # A key that is there gets the weight of a mapping, and keeps its own beside an iterable.
        assert trie.update([1, 7], {1: 6, 8: 9}, iter([8]), Weights()) == 4
        assert dict(trie.items()) == {1: 6, 2: 0, 3: 30, 4: 40, 7: 7, 8: 9}
        assert trie.update(dict.fromkeys(range(16), 1 << 31).keys(), {}) == 10 and trie.weight(0) == 0 and trie.update() == 0
        for bad in {1: 3, 16: 3}, {1: 3, 2: -1}, {1: 3, 2: 1 << 32}:
            assert raises(ValueError, trie.update, {5: 3}, bad)
        assert raises(TypeError, trie.update, {1: 3, 2: "3"}) and raises(TypeError, trie.update, {"1": 3}) and trie.weight(1) == 6 and trie.weight(5) == 5
        assert trie.difference_update({1: 5}, {16: 1}) == 1 and 1 not in trie
    assert raises(augtrie.Closed, trie.update) and raises(augtrie.Closed, trie.update, {1: 1})


@test
def a_trie_says_what_it_is():
    with Trie(12, users=2) as trie:
        assert repr(trie) == "<augtrie.Trie bits=12 users=2 size=0>"
        trie.update(range(5))
        assert repr(trie) == str(trie) == "<augtrie.Trie bits=12 users=2 size=5>"
        with trie.snapshot():
            # It uses the place that nobody has, and leaves it free.
            assert trie.add(7) and repr(trie) == "<augtrie.Trie bits=12 users=2 size=6>"
            assert elsewhere(lambda: (trie.add(8), trie.discard(8), repr(trie))) == (True, True, "<augtrie.Trie bits=12 users=2 size=6>")
            # This thread has a snapshot, and another one the last place.
            with beside(trie.room):
                assert repr(trie) == elsewhere(lambda: repr(trie)) == "<augtrie.Trie bits=12 users=2>"
    assert repr(trie) == "<augtrie.Trie bits=12 users=2 size=6 closed>" and "Snapshots that are open answer as before" in Trie.close.__doc__
    # What it came to is told again.
    assert trie.close() == elsewhere(trie.close) == (7, 1, 6) and repr(trie.close()) == "augtrie.Report(inserts=7, removals=1, size=6)"


def main():
    failed = 0
    for function in TESTS:
        try:
            function()
        except Exception:
            failed += 1
            print(f"{function.__name__} failed")
            traceback.print_exc()
    print(f"{len(TESTS) - failed} passed, {failed} failed")
    return failed != 0


if __name__ == "__main__":
    sys.exit(main())
