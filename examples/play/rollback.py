"""Rollback: a peer that doesn't wait for the inputs of another guesses them, and takes ticks again where it was wrong.

`python3 examples/play/rollback.py PROGRAM` at the top of the repository. The true input of a tick comes three ticks late.
Until then the guess is that there is none. Where there was one, the peer goes back to the state before that tick, and
takes the ticks since then again. In the end each tick has the digest of a host that had all inputs in time.
"""
import os
import random
import sys

from client import Play

HERE = os.path.dirname(os.path.abspath(__file__))
TICKS = 100
LATE = 3


class Peer:
    """A session that keeps a mark before each of its last ticks, and the digest after each tick."""

    def __init__(self, program):
        self.play = Play(os.path.join(HERE, "arena.toml"), program=program)
        self.player = self.play.spawn("Position 2 0", "Velocity 1 0", "Health 90")
        self.digests = {}

    def tick(self, number, velocity):
        self.play.ask("mark", f"tick_{number % (LATE + 1)}")
        if velocity:
            self.play.ask("insert", self.player, "Velocity", *velocity)
        self.play.ask("run", 1)
        self.digests[number] = self.play.ask("digest")[0]

    def back(self, number):
        self.play.ask("back", f"tick_{number % (LATE + 1)}")


def main(program):
    chance = random.Random(3)
    true = [(chance.randint(-1, 1), chance.randint(-1, 1)) if chance.random() < 0.3 else None for _ in range(TICKS)]
    host, guesser = Peer(program), Peer(program)
    wrong = 0
    for number in range(TICKS):
        host.tick(number, true[number])
    for number in range(TICKS + LATE):
        if number < TICKS:
            guesser.tick(number, None)
        known = number - LATE
        if known >= 0 and true[known]:
            wrong += 1
            guesser.back(known)
            for again in range(known, min(number + 1, TICKS)):
                guesser.tick(again, true[known] if again == known else None)
    alike = sum(host.digests[number] == guesser.digests[number] for number in range(TICKS))
    print(f"{wrong} guesses were wrong")
    print(f"{alike} of {TICKS} digests are equal")
    return host.play.close() + guesser.play.close()


if __name__ == "__main__":
    sys.exit(main(*sys.argv[1:]))
