"""Settings messages in Canonical OER (Rec. ITU-T X.696) over liboer_c.a.

    table = Table(rows, items)                       # a sound table, or Refused
    message = table.edit(row, message, [0, 1], [(2, 256)])

include/oer.h describes type tables, value lists, paths and replies. Nodes are pairs (kind, number). Numbers of kinds 2
and 3 may be given as negative numbers; `setting` gives them back so. Messages and contents are bytes. A refusal is the
exception Refused.
"""

import ctypes
import os
import struct
import subprocess
from pathlib import Path

ROOT = Path(__file__).resolve().parent.parent.parent
MOST_OCTETS = 65535
WORD = 1 << 64

NAMES = ["DONE", "TABLE SIZE", "TABLE ROW", "TYPE", "LONG", "SHORT", "NOT CANONICAL", "NOT ALLOWED", "WIDE",
         "LEFT OVER", "NODES", "LIST", "ROOM", "PATH"]
PARTS = ["table", "message", "value list", "path", "result"]
SETTINGS = ["refused", "absent", "truth", "unsigned", "signed", "single", "double", "size", "group"]


class Refused(Exception):
    """Number (1 to 13), part (0 table, 1 message, 2 value list, 3 path, 4 result) and place."""

    def __init__(self, number, part, place):
        super().__init__(f"{number} ({NAMES[number]}) in the {PARTS[part]} at {place}")
        self.number, self.part, self.place = number, part, place


class _Reply(ctypes.Structure):
    _fields_ = [(name, ctypes.c_uint64) for name in ("number", "part", "place", "nodes", "octets")]


class _Setting(ctypes.Structure):
    _fields_ = [(name, ctypes.c_uint64) for name in ("number", "part", "place", "what", "word")]


class _Text(ctypes.Structure):
    _fields_ = [(name, ctypes.c_uint64) for name in ("found", "start", "length")]


_ANSWERS = {"check": _Reply, "validate": _Reply, "decode": _Reply, "measure": _Reply, "encode": _Reply, "edit": _Reply,
            "read_setting": _Setting, "read_text": _Text}


def _build():
    """The shared library, made of the archive once; OER_LIB_DIR names the archive's directory if it is another one."""
    archive = Path(os.environ.get("OER_LIB_DIR", ROOT / "target" / "staticlib")) / "liboer_c.a"
    if not archive.exists():
        raise FileNotFoundError(f"{archive} is not there: `bash tools/archive oer_c` writes it")
    shared = ROOT / "target" / "python" / "liboer_c.so"
    made_of = shared.with_suffix(".from")
    stamp = f"{archive.resolve()} {archive.stat().st_mtime_ns}"
    if not shared.exists() or not made_of.exists() or made_of.read_text() != stamp:
        shared.parent.mkdir(parents=True, exist_ok=True)
        whole = ["-Wl,--whole-archive", str(archive), "-Wl,--no-whole-archive"]
        subprocess.run(["gcc", "-shared", *whole, "-o", str(shared)], check=True)
        made_of.write_text(stamp)
    return shared


def _load():
    library = ctypes.CDLL(str(_build()))
    for name, answer in _ANSWERS.items():
        getattr(library, "oer_" + name).restype = answer
    return library


_library = _load()


def _word(number):
    if not -WORD // 2 <= number < WORD:
        raise OverflowError(f"{number} is above 64 bits")
    return number % WORD


def _words(numbers):
    return (ctypes.c_uint64 * max(1, len(numbers)))(*map(_word, numbers)), len(numbers)


def _octets(octets):
    return (ctypes.c_uint8 * max(1, len(octets))).from_buffer_copy(octets or b"\0"), len(octets)


def _nodes(nodes):
    return _words([word for node in nodes for word in node])


def _call(name, lists):
    """Calls a function with each list as a pointer and a length; a plain number is passed as a word."""
    arguments = []
    for part in lists:
        if isinstance(part, int):
            arguments.append(ctypes.c_uint64(_word(part)))
        else:
            array, count = part
            arguments += [array, ctypes.c_size_t(count)]
    answer = getattr(_library, "oer_" + name)(*arguments)
    if name != "read_text" and answer.number != 0:
        raise Refused(answer.number, answer.part, answer.place)
    return answer


class Table:
    """A type table that was found sound."""

    def __init__(self, rows, items):
        self._lists = [_words(rows), _words(items)]
        _call("check", self._lists)

    def _call(self, name, row, *lists):
        return _call(name, self._lists + [row, *lists])

    def validate(self, row, message):
        """How many nodes and contents octets the message's value list has."""
        reply = self._call("validate", row, _octets(message))
        return reply.nodes, reply.octets

    def decode(self, row, message):
        """The message's value list: its nodes and its contents."""
        count, octets = self.validate(row, message)
        nodes, contents = _words([0] * (2 * count)), _octets(bytes(octets))
        self._call("decode", row, _octets(message), nodes, contents)
        words = list(nodes[0])[:2 * count]
        return list(zip(words[::2], words[1::2])), bytes(contents[0])[:octets]

    def measure(self, row, nodes, contents=b""):
        """How many octets the value list's message has."""
        return self._call("measure", row, _nodes(nodes), _octets(contents)).octets

    def encode(self, row, nodes, contents=b""):
        """The value list's message."""
        out = _octets(bytes(self.measure(row, nodes, contents)))
        octets = self._call("encode", row, _nodes(nodes), _octets(contents), out).octets
        return bytes(out[0])[:octets]

    def edit(self, row, message, path, nodes, contents=b"", room=MOST_OCTETS):
        """The message with the component at the path replaced; nothing else changes but at most one presence bit."""
        out = _octets(bytes(room))
        lists = _octets(message), _words(path), _nodes(nodes), _octets(contents), out
        octets = self._call("edit", row, *lists).octets
        return bytes(out[0])[:octets]

    def setting(self, row, message, path):
        """What the component at the path is, and its value: ("unsigned", 256), ("single", 0.5), ("absent", None)."""
        answer = self._call("read_setting", row, _octets(message), _words(path))
        return SETTINGS[answer.what], _value(answer.what, answer.word)

    def text(self, row, message, path, fallback=b""):
        """The octets of the string at the path; the fallback if the reading is refused, absent or no string."""
        answer = self._call("read_text", row, _octets(message), _words(path))
        return message[answer.start:answer.start + answer.length] if answer.found else fallback


def _value(what, word):
    if what == 1:
        return None
    if what == 2:
        return word == 1
    if what == 4:
        return word - WORD if word >= WORD // 2 else word
    if what == 5:
        return struct.unpack(">f", struct.pack(">I", word))[0]
    if what == 6:
        return struct.unpack(">d", struct.pack(">Q", word))[0]
    return word
