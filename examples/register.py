#!/usr/bin/env python3
"""Prints the page of a module for the register: its contents, or why it is refused.

    python3 examples/register.py MODULE [LIBRARY]

LIBRARY is libdbm0.a as a shared library (examples/README.md says how to build it). The default is target/libdbm0.so. The exit status is
0 for a page and 1 for a refusal.
"""
import ctypes
import os
import struct
import sys
from ctypes import c_int16, c_size_t, c_uint8, c_uint16, c_uint32, c_uint64

DEFAULT_LIBRARY = os.path.join(os.path.dirname(os.path.abspath(__file__)), "..", "target", "libdbm0.so")


# The answers, as include/dbm0.h declares them. Each begins with number and place; ctypes appends the fields of a subclass to those of
# its base.
class Answer(ctypes.Structure):
    _fields_ = [("number", c_uint64), ("place", c_uint64)]


class Version(Answer):
    _fields_ = [("version", c_uint8), ("revision", c_uint8)]


class Name(Answer):
    _fields_ = [("name", c_uint8 * 44)]


class Info(Answer):
    _fields_ = [(name, c_uint16) for name in ("instruments", "samples", "songs", "patterns", "tracks")]


class Song(Answer):
    _fields_ = [("name", c_uint8 * 44), ("length", c_uint16)]


class Length(Answer):
    _fields_ = [("length", c_uint64)]


class Instrument(Answer):
    _fields_ = [
        ("name", c_uint8 * 30),
        ("sample", c_uint16),
        ("volume", c_uint16),
        ("panning", c_int16),
        ("flags", c_uint16),
        ("rate", c_uint32),
        ("loop_start", c_uint32),
        ("loop_length", c_uint32),
    ]


class Sample(Answer):
    _fields_ = [("width", c_uint8), ("frames", c_uint32)]


class Refused(Exception):
    """The number and the place of a refusal."""


class Module:
    """The queries about a module. Its bytes are passed without a copy."""

    def __init__(self, library, data):
        self.library = ctypes.CDLL(library)
        self.data = data

    def query(self, name, answer_type, *numbers, out=None):
        """Calls a query with the module, the numbers, and an output if the query fills one."""
        call = self.library[name]
        call.restype = answer_type
        arguments = [self.data, c_size_t(len(self.data)), *map(c_size_t, numbers)]
        if out is not None:
            arguments += [out, c_size_t(len(out))]
        answer = call(*arguments)
        if answer.number != 0:
            raise Refused(answer.number, answer.place)
        return answer

    def playlist(self, song):
        """The entries of a song: two-byte pattern numbers, big-endian."""
        out = ctypes.create_string_buffer(2 * self.query("dbm0_song", Song, song).length)
        written = self.query("dbm0_playlist", Length, song, out=out).length
        return struct.unpack(f">{written // 2}H", out.raw[:written])


def text(name):
    """A name without the zeros at its end. A byte that is not printable ASCII is printed as its number."""
    shown = bytes(name).rstrip(b"\0")
    return '"' + "".join(chr(byte) if 32 <= byte < 127 and byte not in b'"\\' else f"\\x{byte:02x}" for byte in shown) + '"'


def loop(instrument):
    """If both kinds are set, the loop is forward. Without a length there is no loop."""
    if instrument.loop_length == 0 or instrument.flags == 0:
        return "no loop"
    kind = "forward" if instrument.flags & 1 else "ping-pong"
    return f"{kind} loop of {instrument.loop_length} from {instrument.loop_start}"


def page(module):
    """The lines of the page. Songs are counted from 0, instruments and samples from 1."""
    version = module.query("dbm0_version", Version)
    info = module.query("dbm0_info", Info)
    # The revision is two decimal digits of four bits each.
    yield f"version {version.version}.{version.revision:02x}"
    yield f"name {text(module.query('dbm0_name', Name).name)}"
    for kind in ("instruments", "samples", "songs", "patterns", "tracks"):
        yield f"{kind} {getattr(info, kind)}"
    for number in range(info.songs):
        song = module.query("dbm0_song", Song, number)
        yield f"song {number} {text(song.name)}: patterns {' '.join(map(str, module.playlist(number))) or 'none'}"
    for number in range(1, info.instruments + 1):
        fitted = module.query("dbm0_instrument", Instrument, number)
        sample = f"sample {fitted.sample}" if fitted.sample else "no sample"
        yield (
            f"instrument {number} {text(fitted.name)}: {sample}, volume {fitted.volume}, panning {fitted.panning}, "
            f"{loop(fitted)}"
        )
    for number in range(1, info.samples + 1):
        sample = module.query("dbm0_sample", Sample, number)
        yield f"sample {number}: {sample.width} bits, {sample.frames} frames"


def main():
    if len(sys.argv) not in (2, 3):
        sys.exit(__doc__)
    with open(sys.argv[1], "rb") as f:
        module = Module(sys.argv[2] if len(sys.argv) == 3 else DEFAULT_LIBRARY, f.read())
    try:
        # All queries refuse the same modules, so the first one reports a refusal.
        print("\n".join(page(module)))
    except Refused as refusal:
        number, place = refusal.args
        print(f"refused {number} at {place}")
        sys.exit(1)


main()
