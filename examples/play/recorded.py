"""A host whose session is recorded, killed, gone on with, and taken again.

`python3 examples/play/recorded.py PROGRAM` at the top of the repository. A host plays 40 ticks with four workers, and is
killed without a word. Another goes on from its record for 40 ticks more. Its record, taken again on one thread, ends with
the digest that the second host saw.
"""
import os
import subprocess
import sys
import tempfile

from client import Play

HERE = os.path.dirname(os.path.abspath(__file__))
FILE = os.path.join(HERE, "arena.toml")
TICKS = 40


def tick(play, number):
    """Lets a player come each fourth tick, runs once, and gives the digest."""
    if number % 4 == 0:
        play.spawn("Position", number % 7, 0, "Velocity", 1, 0, "Health", 9)
    play.ask("run", 1)
    return play.ask("digest")[0]


def main(program):
    with tempfile.TemporaryDirectory() as room:
        first, second = os.path.join(room, "first"), os.path.join(room, "second")
        host = Play(FILE, workers=4, program=program, more=("--record", first))
        for number in range(TICKS):
            before = tick(host, number)
        host.process.kill()
        host.process.wait()
        host = Play(FILE, workers=4, program=program, more=("--from", first, "--record", second))
        print("goes on where it was:", host.ask("digest")[0] == before)
        for number in range(TICKS, 2 * TICKS):
            last = tick(host, number)
        status = host.close()
        replies = subprocess.run([program, "replay", FILE, second], stdout=subprocess.PIPE, check=True).stdout.decode()
    print("taken again on one thread:", replies.splitlines()[-1] == f"digest {last}")
    return status


if __name__ == "__main__":
    sys.exit(main(*sys.argv[1:]))
