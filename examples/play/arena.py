"""An arena in a terminal, driven by a script: `python3 examples/play/arena.py PROGRAM` at the top of the repository.

Each tick the host puts inputs in, runs the schedule once, asks what has changed since the last tick, and draws. In the
middle it keeps the state under a name, goes on, and then goes back.
"""
import os
import sys

from client import Play

HERE = os.path.dirname(os.path.abspath(__file__))


def draw(play, letters):
    """The arena, row by row: a letter for each player, a star for each thorn."""
    field = [["." for _ in range(10)] for _ in range(4)]
    for _, _, x, y in play.query("read Position, with Damage"):
        field[int(y)][int(x)] = "*"
    for player, _, x, y in play.query("read Position, with Health"):
        field[int(y)][int(x)] = letters[player]
    for row in field:
        print("".join(row))


def tick(play, letters, number, inputs):
    """Puts inputs in, runs once, and tells what has changed."""
    before = play.clock
    for words in inputs:
        play.ask(*words)
    play.ask("run", 1)
    print(f"tick {number}")
    for row in play.query("changed Health, read Health, read Position", before):
        print("hurt", *row)
    draw(play, letters)


def main(program):
    play = Play(os.path.join(HERE, "arena.toml"), program=program)
    ada = play.spawn("Position 2 0", "Velocity 1 0", "Health 2")
    bob = play.spawn("Position 9 2", "Velocity 0 0", "Health 3")
    print("players", ada, bob)
    letters = {ada: "A", bob: "B"}
    tick(play, letters, 1, [])
    play.ask("mark", "before")
    tick(play, letters, 2, [("insert", bob, "Velocity", -1, 0)])
    tick(play, letters, 3, [("insert", ada, "Velocity", 0, 0), ("insert", bob, "Velocity", 0, 0)])
    print("back")
    play.ask("back", "before")
    tick(play, letters, 2, [("insert", ada, "Velocity", 0, 1)])
    print(*play.ask("events", "Hit", 0))
    play.ask("quit")
    return play.close()


if __name__ == "__main__":
    sys.exit(main(*sys.argv[1:]))
