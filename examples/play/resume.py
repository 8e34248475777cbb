"""A host that stops, and another that goes on: the state goes from one process to the next as a text.

`python3 examples/play/resume.py PROGRAM` at the top of the repository. One host plays 100 ticks. Another plays 50, saves
the state and ends. A third loads it and plays the other 50, with workers. After each tick the digests are equal.
"""
import os
import random
import sys

from client import Play

HERE = os.path.dirname(os.path.abspath(__file__))
FILE = os.path.join(HERE, "arena.toml")
TICKS = 100


def begin(program):
    """A host with two players, `2v1` and `3v1`."""
    play = Play(FILE, program=program)
    for words in ("Position 2 0 Velocity 1 0 Health 9", "Position 7 2 Velocity 1 0 Health 9"):
        play.spawn(words)
    return play


def tick(play, number):
    """Turns a player by chance, runs once, and gives the digest."""
    chance = random.Random(number)
    player = chance.choice(("2v1", "3v1"))
    play.ask("insert", player, "Velocity", chance.randint(-1, 1), chance.randint(-1, 1))
    play.ask("run", 1)
    return play.ask("digest")


def main(program):
    whole = begin(program)
    wanted = [tick(whole, number) for number in range(TICKS)]
    first = begin(program)
    found = [tick(first, number) for number in range(TICKS // 2)]
    lines = first.save()
    status = whole.close() + first.close()
    second = Play(FILE, workers=2, program=program)
    second.load(lines)
    found += [tick(second, number) for number in range(TICKS // 2, TICKS)]
    alike = sum(one == other for one, other in zip(wanted, found))
    print(f"{alike} of {TICKS} digests are equal")
    return status + second.close()


if __name__ == "__main__":
    sys.exit(main(*sys.argv[1:]))
