"""A client of `ecsplay`, in fifty lines: `Play(file)` starts the program, and each call is a request."""
import subprocess


class Refused(Exception):
    """The request was refused, and nothing has changed."""


class Lost(Exception):
    """A run failed, and the state is gone: go back to a mark."""


class Play:
    def __init__(self, file, workers=0, program="ecsplay", more=()):
        words = [program, "play", file, "--workers", str(workers), *more]
        self.process = subprocess.Popen(words, stdin=subprocess.PIPE, stdout=subprocess.PIPE)
        self.clock = 1

    def line(self):
        line = self.process.stdout.readline()
        if not line.endswith(b"\n"):
            raise EOFError(f"ecsplay ended with status {self.process.wait()}")
        return line[:-1].decode()

    def ask(self, *words, lines=()):
        """The lines of the reply to a request, and to the lines that follow it."""
        text = "".join(f"{it}\n" for it in (" ".join(map(str, words)), *lines))
        self.process.stdin.write(text.encode())
        self.process.stdin.flush()
        word, *rest = self.line().split(" ")
        if word != "ok":
            raise {"refused": Refused, "lost": Lost}.get(word, MemoryError)(" ".join(rest))
        self.clock = int(rest[1])
        return [self.line() for _ in range(int(rest[0]))]

    def spawn(self, *components):
        """The id of a new entity with these components, as `Position 3 4`."""
        return self.ask("spawn", *components)[0]

    def query(self, text, since=0):
        """The rows of a query: for each the id, and what the query fetches."""
        return [line.split(" ") for line in self.ask("query", since, text)]

    def save(self):
        """The whole state, as lines."""
        return self.ask("save")

    def load(self, lines):
        """Sets a state that was saved, in this process or in another."""
        self.ask("load", len(lines), lines=lines)

    def close(self):
        self.process.stdin.close()
        return self.process.wait()
