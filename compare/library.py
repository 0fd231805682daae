"""The functions of the static library for models in Python, through a shared object that is made of it."""
import ctypes
import struct
import subprocess
import tempfile
from pathlib import Path

# for each mode that reads: how many numbers its answer has
MODES = {"parts": 15, "instant": 5, "date": 5}
NODES, NODE = 1536, 6
NO_PATTERN = 112
# what an answer or a buffer holds before a call, so that a byte too many or too few shows
FILLER = b"\xa5"
# the buffer of texts has more bytes than the room in it that is lent
TEXT_BUFFER = 640

TEXT = (ctypes.c_char_p, ctypes.c_size_t)
MOMENT = 7 * (ctypes.c_int32,)
FILLED = (ctypes.c_void_p,)
ROOM = (ctypes.c_void_p, ctypes.c_size_t)
ARGUMENTS = {mode: 2 * TEXT + FILLED for mode in MODES} | {mode + "_by": 3 * TEXT + FILLED for mode in MODES}
ARGUMENTS |= {"write": TEXT + MOMENT + ROOM + FILLED, "write_by": 2 * TEXT + MOMENT + ROOM + FILLED}
ARGUMENTS |= {"compile": TEXT + FILLED}


def refusal(number, size, pattern=NO_PATTERN, first=0, second=0):
    """The whole answer of a refusal."""
    return (number, pattern, first, second, *(size - 4) * (0,))


def accepted(values):
    """The whole answer with these values."""
    return (0, NO_PATTERN, 0, 0, *values)


class Refused(Exception):
    """A refusal that is due: its number, and its pattern and figures where it has them."""

    def answer(self, size):
        number, *told = self.args
        return refusal(number, size, *told)


class Buffer:
    """Bytes that functions fill."""

    def __init__(self, size):
        self.bytes = bytearray(size)
        self.at = ctypes.addressof(ctypes.c_char.from_buffer(self.bytes))
        self.unset = size * FILLER

    def cleared(self):
        """Where it is, all of its bytes unset."""
        self.bytes[:] = self.unset
        return self.at


class Library:
    """Settings are a number, or None for the functions that take none."""

    def __init__(self, archive):
        with tempfile.TemporaryDirectory() as folder:
            shared = Path(folder) / "libsorbilgan.so"
            whole = ["-Wl,--whole-archive", archive, "-Wl,--no-whole-archive"]
            subprocess.run(["gcc", "-shared", "-o", shared, *whole], check=True)
            self.functions = declared(ctypes.CDLL(str(shared)))
        self.answers = {size: (Buffer(8 * size), struct.Struct(f"={size}q")) for size in set(MODES.values())}
        self.nodes = Buffer(NODES)
        self.text = Buffer(TEXT_BUFFER)

    def call(self, name, settings, texts, *others):
        arguments = [part for text in texts for part in (text, len(text))]
        if settings is None:
            return self.functions[name](*arguments, *others)
        return self.functions[name + "_with"](settings, *arguments, *others)

    def answer(self, size, name, settings, texts, *others):
        """The numbers of an answer; before them the one that is returned, if it is not the first of them."""
        buffer, layout = self.answers[size]
        number = self.call(name, settings, texts, *others, buffer.cleared())
        numbers = layout.unpack(buffer.bytes)
        return numbers if numbers[0] == number else (number, *numbers)

    def read(self, settings, mode, *texts):
        """The texts are a template and what is typed, or before them the nodes of the template."""
        name = mode + "_by" if len(texts) == 3 else mode
        return self.answer(MODES[mode], name, settings, texts)

    def write(self, settings, moment, room, *texts):
        """The numbers, and last the whole buffer. The texts are a template, or before it its nodes."""
        name = "write_by" if len(texts) == 2 else "write"
        return *self.answer(5, name, settings, texts, *moment, self.text.cleared(), room), bytes(self.text.bytes)

    def compile(self, settings, template):
        """How many bytes of nodes there are, or which refusal, and the whole buffer."""
        return self.call("compile", settings, (template,), self.nodes.cleared()), bytes(self.nodes.bytes)

    def has_lone_mark(self, nodes, template):
        return self.call("has_lone_mark", None, (nodes, template))


def declared(shared):
    """Each function by its name, and the one with settings."""
    functions = {}
    for name, arguments in ARGUMENTS.items():
        for suffix, settings in (("", ()), ("_with", (ctypes.c_uint32,))):
            function = functions[name + suffix] = shared["sorbilgan_" + name + suffix]
            function.argtypes = settings + arguments
            function.restype = ctypes.c_int64 if name == "compile" else ctypes.c_uint8
    function = functions["has_lone_mark"] = shared["sorbilgan_has_lone_mark"]
    function.argtypes, function.restype = 2 * TEXT, ctypes.c_uint8
    return functions
