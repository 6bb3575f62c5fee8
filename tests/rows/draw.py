#!/usr/bin/env python3
"""Writes a file of rows with drawn calls, whose answers a dict and the definitions below give: tests/rows/draw.py FILE [short]. calls.rows has the form of
rows. The short file is for players that are slow, and has but a few rounds.

Each table has the least bytes that its bits and users do with, unless more are asked for: then each user has 64 updates in a round."""
import bisect
import random
import sys

MOST = (1 << 32) - 1
ROOM = 64

# With so many bytes no table here is full.
PLENTY = 3 << 23


def least(bits, users):
    """The fewest bytes: of each key, of 64 updates of each user, and of what else there is."""
    return 168 * 2**bits + 120 * bits * (ROOM * users + 1) + 24 * users - 144


def pairs(members):
    return "[" + " ".join(f"{key}={weight}" if key != weight else str(key) for key, weight in sorted(members.items())) + "]"


def name(weight):
    return "none" if weight is None else weight


class Drawn:
    """A trie of the rows, with the weights of its members."""

    def __init__(self, rng, out, bits, users=("a",), bytes=None):
        self.rng, self.out, self.bits, self.users, self.weights = rng, out, bits, users, {}
        # What was put in and taken out, and how many updates are left to a user alone.
        self.inserts = self.removals = 0
        self.room = ROOM
        self.row(f"T.open {bits} {len(users)} {bytes or least(bits, len(users))}")
        for user in users:
            self.row(f"T.user {user}")

    def row(self, text):
        self.out.append(text)

    def close(self):
        self.row(f"T.close = ok ({self.inserts} {self.removals} {len(self.weights)})")
        for user in self.users:
            self.row(f"{user}.close")

    def set(self, key, now):
        """Gives a key a weight, or takes it out: the weight before."""
        before = self.weights.pop(key, None)
        if now is not None:
            self.weights[key] = now
        if now is not None or before is not None:
            self.inserts += now is not None
            self.removals += before is not None
        return before

    def key(self, near=None):
        size = 1 << self.bits
        return self.rng.randrange(size) if near is None or not self.rng.randrange(4) else (near + self.rng.randrange(4)) % size

    def amount(self, old):
        """Nothing, a small number, a great one, all that a key has, or what it has room for."""
        return self.rng.choice((0, self.rng.randrange(9), MOST - self.rng.randrange(9), self.rng.randrange(MOST), old or 1, MOST - (old or 0)))

    def update(self, user, near=None):
        """A drawn update, with its answer."""
        kind = self.rng.choice(("insert", "remove", "put", "put", "add", "add", "sub", "sub", "pop", "all"))
        key = self.key(near)
        old = self.weights.get(key)
        number = self.amount(old)
        self.room = (self.room or ROOM) - 1
        if kind == "insert":
            if old is None:
                self.set(key, key)
            self.row(f"{user}.insert {key} = {int(old is None)}")
        elif kind == "remove":
            self.set(key, None)
            self.row(f"{user}.remove {key} = {int(old is not None)} ({name(old)} none)")
        elif kind == "put":
            self.set(key, number)
            self.row(f"{user}.put {key} {number} = {1 if old is None else 2} ({name(old)} {number})")
        elif kind in ("add", "sub"):
            self.amounts(user, kind, key, old, number)
        elif kind == "pop" and self.weights:
            which, key = self.rng.choice((("first", min(self.weights)), ("last", max(self.weights))))
            self.row(f"{user}.pop_{which} = 1 ({key} {self.set(key, None)})")
        else:
            self.row(f"{user}.insert {key} = {int(old is None)}")
            if old is None:
                self.set(key, key)

    def amounts(self, user, kind, key, old, number):
        now = (old or 0) + number if kind == "add" else (old or 0) - number
        fits = not number or 0 <= now <= MOST
        if number and fits:
            now = None if kind == "sub" and not now else now
            self.set(key, now)
        answer = 3 if not number else ("too_great" if kind == "add" else "too_little") if not fits else 1 if None in (old, now) else 2
        self.row(f"{user}.{kind} {key} {number} = {answer} ({name(old)} {name(self.weights.get(key))})")

    def array(self, user):
        """A drawn call for an array."""
        keys = [self.key() for _ in range(self.rng.randrange(1, min(1 << self.bits, 40) + 1))]
        kind, count = self.rng.choice(("insert", "remove", "put")), 0
        behind = {key: self.amount(self.weights.get(key)) for key in keys}
        for key in keys:
            old = self.weights.get(key)
            count += kind == "put" or (old is None) == (kind == "insert")
            if kind != "insert" or old is None:
                self.set(key, {"insert": key, "remove": None, "put": behind[key]}[kind])
        told = (f"{key}={behind[key]}" if kind == "put" else str(key) for key in keys)
        self.row(f"{user}.{kind}_all [{' '.join(told)}] = {count}")

    def shows(self, user, members=None):
        self.row(f"{user}.shows {pairs(self.weights if members is None else members)}")

    def look(self, user):
        self.row(f"{user}.look")
        self.shows(user)
        self.row(f"{user}.look_done")

    def changed(self, before):
        keys = sorted(key for key in {*before, *self.weights} if before.get(key) != self.weights.get(key))
        return [(key, name(before.get(key)), name(self.weights.get(key))) for key in keys]

    def asks(self, call, before, turns):
        """Asks what changed since a snapshot or list, from keys on and for rooms of all kinds."""
        changed = self.changed(before)
        keys = [it[0] for it in changed]
        middle = keys[len(keys) // 2] if keys else 0
        froms = [0, 1, middle, middle + 1, self.key(), (1 << self.bits) - 1, 1 << self.bits, MOST]
        rooms = [0, 1, 31, 32, 33, 63, 64, 65, 100]
        for turn in range(turns):
            from_, room = (0, 1 << 16) if turn == 0 else (self.rng.choice(froms), self.rng.choice(rooms))
            at = bisect.bisect_left(keys, from_)
            told = " ".join(f"{key}={old}>{now}" for key, old, now in changed[at : at + room])
            self.row(f"{call} {from_} {room} = [{told}]")


def each_size(rng, out):
    """The least table of each size: all users work, and their places are free once they are closed."""
    for bits in range(1, 17):
        for count in (1, 2, 3, 16, 64):
            out.append(f"T.least_bytes {bits} {count} = {least(bits, count)}")
            out.append(f"T.open {bits} {count} {least(bits, count) - 1} = too_large")
            it = Drawn(rng, out, bits, [f"u#{i}" for i in range(count)])
            for turn in range(2):
                it.row("T.user v = no_user")
                for user in it.users:
                    key = rng.randrange(1 << bits)
                    old = it.set(key, turn)
                    it.row(f"{user}.put {key} {turn} = {1 if old is None else 2} ({name(old)} {turn})")
                    it.row(f"{user}.insert {1 << bits} = bad_key")
                    it.row(f"{user}.look")
                    it.row(f"{user}.size = {len(it.weights)}")
                    it.row(f"{user}.weight {key} = {turn}")
                    # Some close with their look.
                    if rng.randrange(2):
                        it.row(f"{user}.look_done")
                    it.row(f"{user}.close")
                    it.row(f"{user}.look_done = closed")
                    it.row(f"T.user {user}")
                for user in it.users if turn == 0 else ():
                    it.row(f"{user}.close")
                for user in it.users if turn == 0 else ():
                    it.row(f"T.user {user}")
            it.look(it.users[-1])
            it.close()


def all_updates(rng, out):
    """Two users update tables of each size, small and large."""
    for bits in range(1, 17):
        for bytes in (None, PLENTY):
            it = Drawn(rng, out, bits, ["a", "b"], bytes)
            for turn in range(4):
                near = it.key()
                for _ in range(60):
                    for user in it.users:
                        it.update(user, near if turn % 2 else None)
                it.array("a")
                it.array("b")
                it.look("ab"[turn % 2])
            it.close()


def rounds(rng, out, most_bits=10):
    """A thousand rounds that follow upon one another, with the next one laid out late, early and in between."""
    for tending in range(3):
        for bits in range(1, most_bits + 1):
            it = Drawn(rng, out, bits)
            for turn in range(34):
                near = it.key()
                for made in range(ROOM):
                    if tending == 1 or (tending == 2 and not rng.randrange(8)):
                        it.row("T.tend = 0|1")
                    it.update("a", near)
                it.row(f"a.room = {it.room}")
                if bits < 7 or turn % 5 == 0:
                    it.look("a")
            it.close()


def changes(rng, out):
    """What changed between two snapshots, and since a list."""
    for bits in (1, 5, 6, 12, 16):
        it = Drawn(rng, out, bits, ["w", "l"], PLENTY)
        it.row("l.look")
        it.row("l.changes 0 all = []")
        for turn in range(16):
            before, size = dict(it.weights), 1 << bits
            low = rng.randrange(size)
            high = low + rng.randrange(1, size - low + 1)
            for _ in range(rng.randrange(150)):
                # Often a key goes out and comes back with the weight that it had.
                key = rng.randrange(low, high)
                old, now = it.weights.get(key), rng.choice((None, key, key, key + 1))
                it.set(key, now)
                it.row(f"w.remove {key} = {int(old is not None)}" if now is None else f"w.put {key} {now} = {1 if old is None else 2}")
            if turn % 4 == 0:
                it.shows("l", before)
            it.row("l.look_again = 0")
            it.asks("l.changes", before, 12)
            it.asks(f"l.changes_since {pairs(before)}", before, 3)
        it.close()


def over_rounds(rng, out):
    """A list of an earlier round, or of a set with fewer bits, and looks that stay while rounds roll over."""
    for bits in (4, 6, 10):
        it = Drawn(rng, out, bits)
        for updates in (0, 1, 5, 40, 120, 240, 1000, 2, 0, 700):
            before = dict(it.weights)
            if updates % 3:
                it.row("a.look")
            for made in range(updates):
                it.update("a")
                if made % 50 == 0 and updates % 3:
                    it.shows("a", before)
            it.row("a.look_again = 0|1" if updates % 3 else "a.look")
            it.asks(f"a.changes_since {pairs(before)}", before, 5)
            it.row("a.look_done")
        it.row("a.look")
        it.asks("a.changes_since []", {}, 3)
        it.asks(f"a.changes_since {pairs({key: 1 for key in range(1 << (bits - 2))})}", {key: 1 for key in range(1 << (bits - 2))}, 3)
        it.row("a.look_done")
        it.close()


def many_tries(rng, out):
    """Hundreds of tries, opened and closed in any order, while users come and go, and stay open past their trie."""
    tries, users, told = {}, {}, "T#{}.{} = {}".format
    for _ in range(8000):
        t = rng.randrange(400)
        user = rng.randrange(3 * t, 3 * t + 3)
        it, of = tries.get(t), users.get(user)
        # A user may be one of the trie that was closed.
        works = of is not None and of is it
        what = rng.choice(("open", "open", "user", "user", "close user", "put", "put", "look", "close", "tend"))
        if what == "open":
            out.append(told(t, "open 4 3 95256", "open" if it else "ok"))
            tries[t] = it or Drawn(rng, [], 4, ())
        elif what == "user":
            out.append(told(t, f"user u#{user}", "closed" if not it else "open" if of else "ok"))
            if it:
                users[user] = of or it
        elif what == "close user":
            out.append(f"u#{user}.close = {'ok' if of else 'closed'}")
            users.pop(user, None)
        elif what == "put":
            key = rng.randrange(16)
            before = it.set(key, 7) if works else None
            out.append(f"u#{user}.put {key} 7 = {'closed' if not works else 1 if before is None else 2}")
        elif what == "look":
            out.append(f"u#{user}.look = {'ok' if works else 'closed'}")
            out.extend([f"u#{user}.shows {pairs(it.weights)}", f"u#{user}.look_done"] if works else [])
        elif what == "close":
            it = tries.pop(t, None) if rng.randrange(3) == 0 or not it else None
            out.append(told(t, "close", f"ok ({it.inserts} {it.removals} {len(it.weights)})" if it else "closed") if it or t not in tries else "")
        else:
            out.append(told(t, "tend", "0|1" if it else "closed"))


def main(path, short=""):
    out = []
    for seed, part in enumerate((each_size, all_updates, rounds, changes, over_rounds, many_tries)):
        out += [f"# ---- {part.__doc__} ----", ""]
        part(random.Random(seed), out, *[2] * (part is rounds and bool(short)))
    with open(path, "w", encoding="utf-8") as file:
        file.write("\n".join(out) + "\n")


if __name__ == "__main__":
    main(*sys.argv[1:])
