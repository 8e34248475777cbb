"""Lockstep: two peers of one settled program, one on one thread and one with four workers, take the same inputs in one order.

`python3 examples/play/lockstep.py PROGRAM` at the top of the repository. After each of 200 ticks the digests of both are
equal. Then one peer alone takes an input, and its digest is another.
"""
import os
import random
import sys

from client import Play

HERE = os.path.dirname(os.path.abspath(__file__))
TICKS = 200


def inputs(chance, players):
    """What one side puts in, in a tick."""
    player = chance.choice(players)
    return [("insert", player, "Velocity", chance.randint(-1, 1), chance.randint(-1, 1))] if chance.random() < 0.7 else []


def main(program):
    peers = [Play(os.path.join(HERE, "arena.toml"), workers, program) for workers in (0, 4)]
    sides = [random.Random(seed) for seed in (1, 2)]
    players = [peers[0].spawn("Position 2 0", "Velocity 1 0", "Health 9"), peers[0].spawn("Position 7 2", "Velocity 1 0", "Health 9")]
    for words in ("Position 2 0 Velocity 1 0 Health 9", "Position 7 2 Velocity 1 0 Health 9"):
        peers[1].spawn(words)
    alike = 0
    for _ in range(TICKS):
        both = [words for side in sides for words in inputs(side, players)]
        for peer in peers:
            for words in both:
                peer.ask(*words)
            peer.ask("run", 1)
        alike += peers[0].ask("digest") == peers[1].ask("digest")
    print(f"{alike} of {TICKS} digests are equal")
    peers[0].ask("set", "Total", 1)
    print("an input at one peer alone:", "equal" if peers[0].ask("digest") == peers[1].ask("digest") else "another digest")
    return sum(peer.close() for peer in peers)


if __name__ == "__main__":
    sys.exit(main(*sys.argv[1:]))
