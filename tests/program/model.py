"""A small model of the program: what it prints for scripts whose reports are determined."""

import bisect


class Model:
    """A set of keys with weights, through the rounds of a script.

    A round's rows are run in turn, whatever lane they are of. That is its report where all of them are of one lane, and also where
    no lane changes a key that another one names, and asks for no more than its own keys while others change theirs.
    """

    def __init__(self):
        self.weights = {}
        self.rounds = 0

    def report(self, rows):
        """The text of the next round, whose rows are (lane, verb, arguments..)."""
        self.rounds += 1
        self.inserts = self.removals = 0
        opening = sorted(self.weights.items())
        self.snapshots = {}
        lines = []
        for lane, verb, *arguments in rows:
            self.snapshots.setdefault(lane, opening)
            asked = " ".join([verb, *map(str, arguments)])
            lines.append(f"{self.rounds} {lane} {asked} = {self.reply(lane, verb, *arguments)}\n")
        lines.append(f"{self.rounds} end size={len(self.weights)} in={self.inserts} out={self.removals}\n")
        return "".join(lines)

    def reply(self, lane, verb, *arguments):
        if verb in ("insert", "put", "remove"):
            return getattr(self, verb)(*arguments)
        if verb == "look":
            self.snapshots[lane] = sorted(self.weights.items())
            return "ok"
        return answer(self.snapshots[lane], verb, *arguments)

    def insert(self, key):
        if key in self.weights:
            return "old"
        self.weights[key] = key
        self.inserts += 1
        return "new"

    def put(self, key, weight):
        there = key in self.weights
        self.weights[key] = weight
        self.inserts += 1
        self.removals += there
        return "set" if there else "new"

    def remove(self, key):
        if key not in self.weights:
            return "none"
        del self.weights[key]
        self.removals += 1
        return "gone"


def answer(members, verb, *arguments):
    """The answer to a query over a snapshot, the rising list of its keys with their weights."""
    below = [bisect.bisect_left(members, (argument,)) for argument in arguments]
    if verb == "size":
        return str(len(members))
    if verb == "rank":
        return str(below[0])
    if verb == "select":
        return key_at(members, arguments[0])
    if verb == "before":
        return key_at(members, below[0] - 1)
    if verb == "range":
        return span(members[below[0] : below[1]])
    is_there = members[below[0] : below[0] + 1] and members[below[0]][0] == arguments[0]
    if verb == "after":
        return key_at(members, below[0] + bool(is_there))
    if verb == "has":
        return "yes" if is_there else "no"
    if verb == "weight":
        return str(members[below[0]][1]) if is_there else "-"
    raise ValueError(verb)


def key_at(members, index):
    return str(members[index][0]) if 0 <= index < len(members) else "-"


def span(members):
    """How many members there are, the sum of their weights, the least and the greatest."""
    if not members:
        return "0 0 - -"
    return f"{len(members)} {sum(weight for _, weight in members)} {members[0][0]} {members[-1][0]}"


def script_of(rounds):
    """The script of rounds, each of which ends with a row of its own."""
    return "".join(f"{','.join(map(str, row))}\n" for rows in rounds for row in [*rows, ("*", "end")]).encode()


def reports_of(rounds):
    """The report of each. A `grow` row is in none."""
    model = Model()
    return [model.report(row for row in rows if row[0] != "*").encode() for rows in rounds]
