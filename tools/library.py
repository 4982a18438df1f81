"""The C functions that the pages are held against, called from Python: libgroovepawn.a linked as a shared object."""
import ctypes
import os
import subprocess
import tempfile

MOST_STATES = 65536
MOST_FILE_BYTES = 5974
MOST_STRUCK_BYTES = 957
MOST_TEXT_BYTES = 508119


class Refused(Exception):
    def __init__(self, number):
        super().__init__(f"refused {number}")
        self.number = number


class Library:
    def __init__(self, archive):
        with tempfile.TemporaryDirectory() as folder:
            shared = os.path.join(folder, "libgroovepawn.so")
            compiler = os.environ.get("CC", "cc")
            subprocess.run([compiler, "-shared", "-o", shared, "-Wl,--whole-archive", archive, "-Wl,--no-whole-archive"], check=True)
            self.functions = ctypes.CDLL(shared)
        for name in ("prepare", "run", "join", "clean", "wave_write"):
            getattr(self.functions, "groovepawn_" + name).restype = ctypes.c_uint64

    def call(self, name, *arguments):
        """Slices are handed over with their lengths; the refusal is raised, and what stands above it is given back."""
        handed = []
        for argument in arguments:
            if isinstance(argument, (bytes, ctypes.Array)):
                handed += [argument, ctypes.c_size_t(len(argument))]
            else:
                handed.append(ctypes.c_uint8(argument))
        answer = getattr(self.functions, "groovepawn_" + name)(*handed)
        if answer & 255:
            raise Refused(answer & 255)
        return answer >> 8

    def prepare(self, reading, file):
        """The verdict, the states, the live ones, and the marks."""
        marks = (ctypes.c_uint8 * MOST_STATES)()
        answer = self.call("prepare", reading, file, marks)
        states = answer >> 8 & 0xFFFFFF
        return answer & 255, states, answer >> 32, bytes(marks[:states])

    def run(self, reading, file, events):
        """What is released of the events, from the start."""
        marks = self.prepare(reading, file)[3]
        state = (ctypes.c_uint16 * 5)()
        released = (ctypes.c_uint8 * len(events))()
        self.call("run", reading, file, marks, state, bytes(events), released)
        return bytes(released)

    def join(self, a, b):
        out = (ctypes.c_uint8 * MOST_FILE_BYTES)()
        return bytes(out[: self.call("join", a, b, out)])

    def clean(self, reading, file):
        out, struck = (ctypes.c_uint8 * MOST_FILE_BYTES)(), (ctypes.c_uint8 * MOST_STRUCK_BYTES)()
        return bytes(out[: self.call("clean", reading, file, out, struck) & 0xFFFFFF])

    def wave(self, file, events):
        text = (ctypes.c_uint8 * MOST_TEXT_BYTES)()
        return bytes(text[: self.call("wave_write", file, events, text)]).decode()


def rules_in(file):
    """How many rules a file has that passed the check."""
    at = 1 + file[0]
    at += 1 + file[at]
    at += 1 + 2 * file[at]
    at += 1 + file[at]
    return file[at] << 8 | file[at + 1]
