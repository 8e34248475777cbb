"""A world inside a Python process, over `libecs` and ctypes: `World` has the calls of `Play` in ../play/client.py."""
import ctypes
import os
import sys

sys.path.append(os.path.join(os.path.dirname(os.path.abspath(__file__)), "..", "play"))
from client import Lost, Play, Refused

DONE, REFUSED, NO_WORLD, MEMORY, IS_OPEN = range(5)


class Handle(ctypes.Structure):
    """`ecs_world` of ecs.h. It begins as zeros, and is never copied."""
    _fields_ = [("is_open", ctypes.c_bool), ("at", ctypes.c_void_p)]


def loaded(path):
    """The library, with the types of its calls."""
    library = ctypes.CDLL(path)
    world, text, size = ctypes.POINTER(Handle), ctypes.c_char_p, ctypes.c_size_t
    told = [text, size, ctypes.POINTER(size)]
    library.ecs_open.argtypes = library.ecs_request.argtypes = [world, text, size, *told]
    library.ecs_reply.argtypes = [world, *told]
    library.ecs_close.argtypes = [world]
    library.ecs_close.restype = None
    for call in (library.ecs_version, library.ecs_open, library.ecs_request, library.ecs_reply):
        call.restype = ctypes.c_uint32
    return library


class World(Play):
    """The calls of `Play` on a world of this process. It stays on the thread that made it."""

    def __init__(self, library, file):
        self.library, self.handle, self.clock = loaded(library), Handle(), 1
        self.out, self.wanted = ctypes.create_string_buffer(4096), ctypes.c_size_t()
        with open(file, "rb") as it:
            text = it.read()
        status = self.library.ecs_open(self.handle, text, len(text), *self.room())
        if status != DONE:
            raise {REFUSED: Refused}.get(status, MemoryError)(self.text().rstrip())

    def room(self):
        return self.out, len(self.out), self.wanted

    def text(self):
        return self.out.raw[:self.wanted.value].decode()

    def reply(self, request):
        """The whole reply to a request, as a text."""
        status = self.library.ecs_request(self.handle, request, len(request), *self.room())
        if status == DONE and self.wanted.value > len(self.out):
            self.out = ctypes.create_string_buffer(self.wanted.value)
            status = self.library.ecs_reply(self.handle, *self.room())
        if status != DONE:
            raise {NO_WORLD: EOFError}.get(status, MemoryError)(f"status {status}")
        return self.text()

    def ask(self, *words, lines=()):
        """The lines of the reply to a request, and to the lines that follow it."""
        text = "".join(f"{it}\n" for it in (" ".join(map(str, words)), *lines))
        first, *shown = self.reply(text.encode()).splitlines()
        word, *rest = first.split(" ")
        if word != "ok":
            raise {"refused": Refused, "lost": Lost}.get(word, MemoryError)(" ".join(rest))
        self.clock = int(rest[1])
        return shown

    def close(self):
        self.library.ecs_close(self.handle)
        return 0
