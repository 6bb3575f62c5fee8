"""A leaderboard: a player is a key, and the player's score its weight. Four threads raise the scores of all players, and another reads them meanwhile."""

import random
import threading

from augtrie import Trie

# The players of a club have numbers one after the other.
CLUBS, PLAYERS, MATCHES, GOAL = 20, 50, 1500, 100


def play(board, seed, won, winners):
    """Plays matches. Each win raises a score, which other threads may raise at the same time. But one alone sees it reach the goal."""
    chance = random.Random(seed)
    for _ in range(MATCHES):
        player, points = int(chance.random() ** 2 * CLUBS * PLAYERS), 1 + int(chance.random() * 3)
        score = board.increment(player, points)
        won[player] += points
        if score - points < GOAL <= score:
            winners.append(player)


def club_totals(table):
    return [table.total(club * PLAYERS, (club + 1) * PLAYERS) for club in range(CLUBS)]


def watch(board, is_over):
    """Whatever the others do meanwhile, the answers of one snapshot agree, and no later one shows less."""
    before = 0
    while not is_over.is_set():
        with board.snapshot() as table:
            total = table.total(0, CLUBS * PLAYERS)
            assert total == sum(club_totals(table)) == sum(score for _, score in table.items()) >= before
            before = total


def main():
    with Trie(bits=10) as board:
        won = [[0] * (CLUBS * PLAYERS) for _ in range(4)]
        winners = []
        is_over = threading.Event()
        threads = [threading.Thread(target=play, args=(board, seed, won[seed], winners)) for seed in range(4)]
        reader = threading.Thread(target=watch, args=(board, is_over))
        for thread in [*threads, reader]:
            thread.start()
        for thread in threads:
            thread.join()
        is_over.set()
        reader.join()
        with board.snapshot() as table:
            # No point is lost.
            assert [score or 0 for score in table.weights(range(CLUBS * PLAYERS))] == [sum(points) for points in zip(*won)]
            assert sorted(winners) == [player for player, score in table.items() if score >= GOAL]
            ranked = sorted(table.items(), key=lambda it: (-it[1], it[0]))
            print("top ten:", ", ".join(f"{player} has {score}" for player, score in ranked[:10]))
            print(f"player 500 is at rank {1 + ranked.index((500, table.weight(500)))} of {len(table)}, the next player is {table.after(500)}")
            print(f"half of the players have {ranked[len(ranked) // 2][1]} or more, one in a hundred has {ranked[len(ranked) // 100][1]}")
            clubs = club_totals(table)
            best = max(range(CLUBS), key=clubs.__getitem__)
            print(f"{table.total(0, CLUBS * PLAYERS)} points; club {best} leads with {clubs[best]}")


main()
