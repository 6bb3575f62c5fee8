from augtrie import Trie

with Trie(bits=12) as trie:              # keys below 4096; any thread may call
    trie.update(range(1000))
    trie.increment(7, 25)                # 7 weighed 7, and weighs 32 now
    with trie.snapshot() as now:         # does not change while others write
        print(now.bisect_left(500), "of", len(now), "are below 500")
        print("7 to 9 weigh", now.total(7, 10))
