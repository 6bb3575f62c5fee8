"""A sorted set of whole numbers with weights that threads share, over the proved library `augtrie`.

    from augtrie import Trie

    with Trie(bits=12) as trie:
        trie.add(7)
        trie.increment(9, 5)
        with trie.snapshot() as now:
            assert list(now.items()) == [(7, 7), (9, 5)] and now.bisect_left(9) == 1
        print(trie.close())
"""

from augtrie._augtrie import (
    Again, AugtrieError, BadBits, BadBytes, BadKey, BadLength, BadUsers, Closed, Looking, Members, NoMemory, NothingToCompare, NotLooking, NoUser, Open,
    Report, Snapshot, Span, TooGreat, TooLittle, Trie, __version__)

__all__ = ["Trie", "Snapshot", "Members", "Span", "Report", "AugtrieError", "Closed", "BadKey", "Again", "NoMemory", "BadBits", "BadUsers",
           "BadBytes", "NoUser", "Open", "BadLength", "Looking", "NotLooking", "TooGreat", "TooLittle", "NothingToCompare"]
