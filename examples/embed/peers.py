"""Two peers in lockstep: a world inside this process, and one in a child process. They take the same inputs.

`python3 examples/embed/peers.py LIBRARY PROGRAM` at the top of the repository, with the built `libecs.so` and
`ecsplay`. After each of 100 ticks the digests of both are equal. Then the state of the library's world goes to the
program, which goes on alike.
"""
import os
import random
import sys

from world import Play, Refused, World

ARENA = os.path.join(os.path.dirname(os.path.abspath(__file__)), "..", "play", "arena.toml")
TICKS = 100


def main(library, program):
    peers = [World(library, ARENA), Play(ARENA, program=program)]
    players = [[peer.spawn("Position 2 0", "Velocity 1 0", "Health 9") for peer in peers][0] for _ in range(4)]
    chance, alike = random.Random(1), 0
    for _ in range(TICKS):
        player, speed = chance.choice(players), chance.randint(-2, 2)
        for peer in peers:
            peer.ask("insert", player, "Velocity", speed, 1)
            peer.ask("run", 1)
        alike += peers[0].ask("digest") == peers[1].ask("digest")
    print(f"{alike} of {TICKS} digests are equal")
    for peer in peers:
        try:
            peer.ask("back", "nowhere")
        except Refused as why:
            print(f"refused {why}")
    peers[0].ask("run", 7)
    peers[1].load(peers[0].save())
    for peer in peers:
        peer.ask("run", 1)
    print("a state that went over:", "equal" if peers[0].ask("digest") == peers[1].ask("digest") else "another digest")
    return sum(peer.close() for peer in peers)


if __name__ == "__main__":
    sys.exit(main(*sys.argv[1:3]))
