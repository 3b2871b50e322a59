"""A leaderboard: players by their points, the best first. A key is points and player, so that equal points are neighbours."""

from itertools import islice

from sweep_bptree import SortedSet

board = SortedSet()
points = {}


def score(player, more):
    board.discard((points.get(player, 0), player))
    points[player] = points.get(player, 0) + more
    board.add((points[player], player))


def show(player):
    for place, (most, best) in enumerate(islice(reversed(board), 3), 1):
        print(f"{place}. player {best}: {most}")
    print(f"player {player} is number {len(board) - board.rank((points[player], player))} of {len(board)}")


for player, more in [(1, 120), (2, 90), (3, 250), (4, 60), (5, 310), (6, 250), (4, 200)]:
    score(player, more)
show(3)
print(board.range_len((100,), (251,)), "players have 100 to 250 points")
board.remove((points[5], 5))
show(3)
