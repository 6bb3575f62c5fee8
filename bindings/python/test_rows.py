"""Plays the files of rows, tests/rows/*.rows, whose form calls.rows has at its head: each row is a call and what it must answer. Each user is a thread. The
arguments may name more files. What the module does in another way is passed over here, and test_augtrie.py has it. The last line is 'ok: N rows, M passed over'."""

import bisect
import concurrent.futures
import glob
import itertools
import os
import re
import sys
import threading

import augtrie

FOLDER = os.path.join(os.path.dirname(os.path.abspath(__file__)), "..", "..", "tests", "rows")

# The names of codes, which begin with that of 0.
CODES = ("ok none closed bad_key again no_memory bad_bits bad_users too_large no_user open bad_length looking not_looking too_great too_little").split()
NONE = -1

# What stands for an answer or a weight that the module does not tell.
UNTOLD = None

ITEM = re.compile(r"([^.>x=:]+)(?:(\.\.|>|x)([^:=]+))?(?::([^=]+))?(?:=([^>]+)(?:>(.+))?)?")


class Passed(Exception):
    """The module has no such call, or answers it in another way."""


# ---- Reading ----


def term(text, names):
    """The value of numbers and variables with signs in between, from left to right."""
    known = {"all": 1 << 16, "most": (1 << 32) - 1, "none": NONE, **names}
    value, sign = 0, "+"
    for word in re.findall(r"\w+|\W", text):
        if word in "+-*/%":
            sign = word
        else:
            other = int(word) if word.isdigit() else known[word]
            value = {"+": value + other, "-": value - other, "*": value * other}[sign] if sign in "+-*" else value // other if sign == "/" else value % other
    return value


def numbers(text, names):
    """The items of a list: of each a key and what stands behind it."""
    found = []
    for item in text.strip("[]").split():
        from_, kind, to, step, *behind = ITEM.fullmatch(item).groups()
        first, last, step = (term(it or "1", names) for it in (from_, to, step))
        keys = {"..": range(first, last, step), ">": range(first, last - 1, -step), "x": [first] * last, None: [first]}[kind]
        for key in keys:
            found.append((key, *(term(it, {**names, "k": key}) for it in behind if it)))
    return found


def weighing(items):
    return [(it[0], it[-1]) for it in items]


# ---- Users ----


class User:
    """A thread that does what it is told, and the snapshot that it has."""

    def __init__(self, trie):
        self.trie, self.now = trie, None
        self.thread = concurrent.futures.ThreadPoolExecutor(1)
        self.ident = self.thread.submit(threading.get_ident).result()

    def do(self, call):
        return call() if self.is_this_thread() else self.thread.submit(call).result()

    def is_this_thread(self):
        return threading.get_ident() == self.ident

    def close(self):
        self.thread.shutdown()


def code_of(fault):
    """The number of an exception's code, by its name."""
    name = type(fault).__name__.replace("BadBytes", "TooLarge")
    return -CODES.index(re.sub(r"(?<!^)(?=[A-Z])", "_", name).lower())


# ---- Calls: each answers a code or number, and a tuple or list of what C writes ----


def update(user, call, args):
    trie, keys = user.trie, [it[0] for it in args[0]] if call.endswith("_all") else ()
    counts = {"insert": lambda: int(trie.add(*args)), "insert_all": lambda: trie.update(keys), "remove_all": lambda: trie.difference_update(keys),
              "put_all": lambda: trie.put_all(keys, [it[-1] for it in args[0]]), "room": trie.room}
    if call in counts:
        return counts[call](), ()
    if call == "remove":
        before = trie.pop(args[0], None)
        return int(before is not None), (NONE if before is None else before, NONE)
    if call == "put":
        before = trie.put(*args)
        return (1, (NONE, args[1])) if before is None else (2, (before, args[1]))
    if call == "add":
        now = trie.increment(*args)
        return UNTOLD if args[1] else 3, (UNTOLD, now or UNTOLD)
    if call == "sub":
        now = trie.decrement(*args)
        return (2 if now else 1) if args[1] else 3, (UNTOLD, now or (NONE if args[1] else UNTOLD))
    if call in ("pop_first", "pop_last"):
        try:
            return 1, trie.popitem(0 if call == "pop_first" else -1)
        except KeyError:
            return NONE, ()
    if call == "look":
        user.now = trie.snapshot()
        return 0, ()
    return None


def number(answer):
    """An answer as in C, where what is no member is None."""
    return (NONE if answer is None else int(answer)), ()


def at(now, index):
    try:
        return now[index]
    except IndexError:
        return None


def query(now, call, args):
    one = {"has": lambda key: key in now, "weight": now.weight, "rank": now.bisect_left, "select_by_weight": now.select_by_weight, "before": now.before,
           "after": now.after, "size": lambda: len(now), "first": lambda: at(now, 0), "last": lambda: at(now, -1), "select": lambda index: at(now, index),
           "look_again": lambda: not now.renew(), "look_done": lambda: now.close() or 0, "shows": lambda items: shows(now, weighing(items)) or 0}
    if call in one:
        return number(one[call](*args))
    if call == "range":
        total, count, *ends = now.span(*args)
        return count, (total, *ends)
    if call in ("rank_all", "has_all", "weight_all"):
        keys = [it[0] for it in args[0]]
        found = {"rank_all": now.rank_all, "has_all": now.has_all, "weight_all": now.weights}[call](keys)
        return 0, [(NONE if it is None else int(it),) for it in found]
    walks = {"keys": lambda it: ((key,) for key in now.irange(it)), "list": now.items, "list_back": lambda it: now.items(None, it, (True, False), True),
             "changes": lambda it: (change for change in changes_of(now) if change[0] >= it),
             "changes_since": lambda it: (change for change in now.changes_since(weighing(args[0])) if change[0] >= it)}
    if call in walks:
        *_, from_, room = args
        return 0, [tuple(NONE if it is None else it for it in row) for row in itertools.islice(walks[call](from_), room)]
    raise AssertionError(f"there is no call '{call}'")


def changes_of(now):
    """What changed, and nothing where there is nothing to compare with, which the module says."""
    try:
        return now.changes()
    except augtrie.NothingToCompare:
        return ()


def shows(now, members):
    """Holds each kind of query to a list, which is all that the snapshot shows."""
    keys, weights = [it[0] for it in members], dict(members)
    assert len(now) == len(keys) and list(now) == keys and list(reversed(now)) == keys[::-1] and now[:] == keys
    assert list(now.items()) == members and list(now.items(reverse=True)) == members[::-1]
    total = 0
    for place, (key, weight) in enumerate(members):
        for near in (key - 1, key, key + 1):
            below, up_to = bisect.bisect_left(keys, near), bisect.bisect_right(keys, near)
            assert (near in now, now.weight(near), now.bisect_left(near), now.bisect_right(near)) == (near in weights, weights.get(near), below, up_to)
            assert now.before(near) == (keys[below - 1] if below else None) and now.after(near) == (keys[up_to] if up_to < len(keys) else None)
        assert now[place] == key and now[place - len(keys)] == key and now.peekitem(place) == (key, weight) and now.index(key) == place
        assert all(now.select_by_weight(total + within) == key for within in (0, weight // 2, weight - 1) if weight)
        total += weight
    assert at(now, len(keys)) is at(now, -len(keys) - 1) is now.select_by_weight(total) is None
    for start, stop in ((0, len(keys)), (len(keys) // 3, len(keys) * 2 // 3), (len(keys) // 2, len(keys))):
        part = members[start:stop]
        ends = [keys[it] if it < len(keys) else 1 << 16 for it in (start, stop)]
        assert now.span(*ends) == (sum(it[1] for it in part), len(part), *((part[0][0], part[-1][0]) if part else (0, 0)))
        assert now.total(*ends) == now.span(*ends).sum and list(now.irange(*ends, (True, False))) == [it[0] for it in part]
    assert now.rank_all(keys) == list(range(len(keys))) and now.has_all(keys) == [True] * len(keys) and now.weights(keys) == list(weights.values())


# ---- Files ----


class Player:
    def __init__(self):
        self.tries, self.users, self.played, self.passed = {}, {}, 0, 0

    def of_trie(self, name, call, args):
        if call == "open":
            self.tries[name] = augtrie.Trie(*args)
            return 0, ()
        if name not in self.tries or call == "least_bytes":
            raise Passed
        trie = self.tries[name]
        if call == "user":
            user = User(trie)
            try:
                user.do(trie.room)
            except augtrie.AugtrieError:
                user.close()
                raise
            self.users[args[0]] = user
            return 0, ()
        return (0, trie.close()) if call == "close" else (int(trie.tend()), ())

    def of_user(self, name, call, args):
        if name not in self.users:
            raise Passed
        user = self.users[name]
        if call == "close":
            self.users.pop(name).close()
            return 0, ()
        found = user.do(lambda: update(user, call, args))
        if found is None:
            if user.now is None:
                raise Passed
            found = user.do(lambda: query(user.now, call, args))
        return found

    def answer(self, name, call, args, wanted):
        """What a call answers, or Passed if the module does not refuse it as C does."""
        elsewhere = {"again": True, "open": True, "closed": call == "close", "bad_key": call in ("remove", "remove_all"),
                     "bad_length": call in ("insert_all", "remove_all", "put_all", "rank_all", "has_all", "weight_all"), "not_looking": call in ("look_done", "close")}
        if call.startswith("wait_") or elsewhere.get(wanted):
            raise Passed
        try:
            return (self.of_trie if name[0].isupper() else self.of_user)(name, call, args)
        except augtrie.AugtrieError as fault:
            if wanted == "looking" and isinstance(fault, augtrie.Closed):
                raise Passed from fault
            return code_of(fault), ()

    def row(self, text, names):
        head, _, wanted = text.partition(" = ")
        head, _, told = (head, "", "") if "[" in wanted else (head, *wanted.partition(" (")[1:])
        code = wanted.partition(" (")[0] or "ok"
        words = re.findall(r"\[[^]]*\]|[^\s\[]+", head)
        name, call = re.fullmatch(r"([A-Za-z]+(?:#.+)?)\.(\w+)", words[0]).groups()
        numbered = lambda handle: "#".join([handle.partition("#")[0], *(str(term(it, names)) for it in handle.split("#")[1:])])
        call = call.removeprefix("try_") if hasattr(str, "removeprefix") else re.sub("^try_", "", call)
        args = [numbered(words[1])] if call == "user" else [numbers(it, names) if it[0] == "[" else term(it, names) for it in words[1:]]
        try:
            found, wrote = self.answer(numbered(name), call, args, code)
        except Passed:
            assert code in CODES[2:] or call.startswith("wait_") or call == "least_bytes", "it is passed over, and not refused"
            self.passed += 1
            return
        if wanted.startswith("["):
            assert found == 0 and wrote == numbers(wanted, names), (found, wrote)
        else:
            codes = [-CODES.index(it) if it in CODES else term(it, names) for it in code.split("|")]
            assert found in codes or found is UNTOLD and {1, 2} & set(codes), found
            assert not isinstance(wrote, list), "it answers a list"
        if told and wrote:
            want = [term(it, names) for it in told.strip(" ()").split()]
            assert len(want) == len(wrote) and all(it is UNTOLD or it == one for it, one in zip(wrote, want)), wrote
        self.played += 1

    def play(self, lines, names):
        at = 0
        while at < len(lines):
            place, text = lines[at]
            end = at + length_of_block(lines[at:])
            user = self.users.get(owner_of(lines[at:end]))
            if user and not user.is_this_thread():
                # All that comes for it is done on its thread, since each change of threads takes time.
                while end < len(lines) and self.users.get(owner_of(lines[end : end + length_of_block(lines[end:])])) is user:
                    end += length_of_block(lines[end:])
                user.do(lambda: self.play(lines[at:end], names))
            elif text.startswith("repeat "):
                times, name = re.fullmatch(r"repeat (\S+) (\w? ?)\{", text).groups()
                for turn in range(term(times, names)):
                    self.play(lines[at + 1 : end - 1], {**names, name.strip(): turn})
            else:
                try:
                    self.row(text, names)
                except Exception as fault:
                    raise AssertionError(f"{place}: {text}: {fault!r}") from fault
            at = end


def length_of_block(lines):
    """How many lines the first row or block has."""
    depth = length = 0
    for _, text in lines:
        depth += text.startswith("repeat ") - (text == "}")
        length += 1
        if not depth:
            return length
    raise AssertionError("the block has no end")


def owner_of(lines):
    """The user whose rows these are, if it is one, and none that closes it."""
    owners = {re.match(r"(?:([a-z]+)\.(?!close)|repeat |\})?", text)[1] for _, text in lines if not re.match(r"repeat |\}", text)}
    return owners.pop() if len(owners) == 1 else None


def play(name, text):
    """Plays a file: how many rows were played, and how many passed over."""
    player = Player()
    rows = [re.sub(r"(^| )#.*", "", line).strip() for line in text.splitlines()]
    player.play([(f"{name}:{number}", row) for number, row in enumerate(rows, 1) if row], {})
    for user in player.users.values():
        user.close()
    assert player.played > player.passed, name
    return player.played, player.passed


def main(files):
    played = passed = 0
    for path in sorted(glob.glob(os.path.join(FOLDER, "*.rows"))) + files:
        with open(path, encoding="utf-8") as file:
            more, more_passed = play(path, file.read())
        played, passed = played + more, passed + more_passed
    with open(os.path.join(FOLDER, "wrong.txt"), encoding="utf-8") as file:
        pairs = [line.strip().split(" / ") for line in file if " / " in line]
    assert len(pairs) >= 20
    for right, wrong in pairs:
        before = "T.open 4 1 1048576\nT.user a\na.put_all [1=30 2=40] = 2\na.look\n"
        assert play("right", before + right)[0] == 5
        try:
            play("wrong", before + wrong)
        except AssertionError:
            continue
        raise RuntimeError(f"'{wrong}' passed")
    assert played >= 10_000 and passed >= 50
    print(f"ok: {played} rows, {passed} passed over")


if __name__ == "__main__":
    main(sys.argv[1:])
