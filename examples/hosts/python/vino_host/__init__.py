"""The proved sandbox for plug-ins, from Python by `ctypes`.

`Library(path)` opens the shared library, `Library.load(image, key)` loads a sealed image, and `Plugin.call` calls it. What is promised is
in `vino_host.h`: a call that misbehaves is dropped, and segment and table are as they were.
"""

from __future__ import annotations

import ctypes
from ctypes import POINTER, c_char_p, c_size_t, c_uint8, c_uint32
from typing import Callable, NamedTuple, Optional, Sequence

SEGMENT = 4096
BYTES_AT = 2048
KEEP_AT = 40
RETURNED, NOT_CALLABLE, WAITING, NO_MEMORY = 0, 3, 32, 14


class _Keys(ctypes.Structure):
    _fields_ = [("count", c_uint32), ("first", c_uint8 * 32), ("second", c_uint8 * 32)]


class _Word(ctypes.Structure):
    _fields_ = [("value", c_uint32), ("owner", c_uint32), ("readers", c_uint32)]


class _Record(ctypes.Structure):
    _fields_ = [("place", c_uint32), ("id", c_uint32), ("value", c_uint32), ("owner", c_uint32)]


class _Call(ctypes.Structure):
    _fields_ = [
        *((name, c_uint32) for name in ("state", "number", "point", "fed", "limit", "left", "id")),
        ("regs", c_uint32 * 16),
        ("pc", c_uint32),
        ("count", c_uint32),
        ("records", _Record * 64),
        ("segment", c_uint8 * SEGMENT),
    ]


class _Request(ctypes.Structure):
    _fields_ = [(name, c_uint32) for name in ("number", "point", "limit", "fresh", "r0", "r1", "r2", "r3")]


class _Answer(ctypes.Structure):
    _fields_ = [(name, c_uint32) for name in ("kind", "detail", "steps", "given", "r0", "r1", "r2", "r3")]


class Refused(Exception):
    """An image was refused: `code` is the number of its L code, `place` that of the instruction."""

    def __init__(self, code: int, place: int, sentence: str) -> None:
        super().__init__(f"L{code} {place}: {sentence}")
        self.code = code
        self.place = place


class Answer(NamedTuple):
    """How a call ended: `kind` 0: it returned; else the cause for which it was dropped. `sentence` says it in words."""

    sentence: str
    kind: int
    detail: int
    steps: int
    registers: tuple[int, int, int, int]
    given: bytes


def _word(value: int) -> int:
    if not 0 <= value < 2**32:
        raise ValueError(f"{value} is no word: it must be 0 to 2**32 - 1")
    return value


def _key(key: bytes) -> ctypes.Array[c_uint8]:
    if len(key) != 32:
        raise ValueError(f"a key has 32 bytes, and this one {len(key)}")
    return (c_uint8 * 32)(*key)


class Table:
    """Words that plug-ins read by id 0 and change by id 1."""

    def __init__(self, values: Sequence[int]) -> None:
        """Makes a table of these words, each 0 to 2**32 - 1."""
        self._words = (_Word * len(values))(*(_Word(_word(value), 0, 0) for value in values))

    def values(self) -> list[int]:
        """The words."""
        return [word.value for word in self._words]


class Plugin:
    """A loaded plug-in with a segment of its own."""

    def __init__(self, library: ctypes.CDLL, loaded: ctypes.Array[c_uint8]) -> None:
        """Made by `Library.load`."""
        self._library = library
        self._loaded = loaded
        self._call = _Call()
        self._segment = (c_uint8 * SEGMENT)()
        self._called = False

    def call(
        self,
        table: Table,
        arguments: Sequence[int] = (0, 0, 0, 0),
        fed: bytes = b"",
        limit: int = 10000,
        point: int = 0,
        host: Optional[Callable[[int, tuple[int, int, int, int]], Optional[int]]] = None,
    ) -> Answer:
        """Calls the plug-in. `host` answers ids 2 to 15 with a word, or with None, which refuses."""
        fresh = 0 if self._loaded[KEEP_AT] == 1 and self._called else 1
        loaded, size = self._loaded, len(self._loaded)
        request = _Request(1, point, limit, fresh, *map(_word, arguments))
        answer = _Answer()
        words = table._words
        data = (c_uint8 * max(1, len(fed)))(*fed)
        self._library.vino_begin(loaded, size, self._call, request, data, len(fed), self._segment, words, len(words), answer)
        while answer.kind == WAITING:
            word = host(answer.detail, (answer.r0, answer.r1, answer.r2, answer.r3)) if host else None
            how = NOT_CALLABLE if word is None else 0
            self._library.vino_resume(loaded, size, self._call, how, word or 0, self._segment, words, len(words), answer)
        given = b""
        if answer.kind == RETURNED:
            self._called = True
            given = bytes(self._segment[BYTES_AT : BYTES_AT + answer.given])
        sentence = _sentence(self._library.vino_sentence, answer.kind)
        return Answer(sentence, answer.kind, answer.detail, answer.steps, (answer.r0, answer.r1, answer.r2, answer.r3), given)

    def check(self) -> bool:
        """Whether the plug-in is still what was loaded."""
        return self._library.vino_check(self._loaded, len(self._loaded)) == 0


def _sentence(put: Callable[..., None], number: int) -> str:
    text = ctypes.create_string_buffer(64)
    put(number, text)
    return text.value.decode()


class Library:
    """The shared library."""

    def __init__(self, path: str) -> None:
        """Opens the shared library at a path."""
        self._library = ctypes.CDLL(path)
        self._library.vino_load.argtypes = [
            POINTER(_Keys), POINTER(c_uint8), c_size_t, POINTER(c_uint8), c_size_t, POINTER(c_uint32),
        ]  # fmt: skip
        self._library.vino_check.argtypes = [POINTER(c_uint8), c_size_t]
        self._library.vino_begin.argtypes = [
            POINTER(c_uint8), c_size_t, POINTER(_Call), POINTER(_Request), POINTER(c_uint8), c_size_t,
            POINTER(c_uint8), POINTER(_Word), c_size_t, POINTER(_Answer),
        ]  # fmt: skip
        self._library.vino_resume.argtypes = [
            POINTER(c_uint8), c_size_t, POINTER(_Call), c_uint32, c_uint32,
            POINTER(c_uint8), POINTER(_Word), c_size_t, POINTER(_Answer),
        ]  # fmt: skip
        for name in ("vino_load", "vino_check", "vino_begin", "vino_resume"):
            getattr(self._library, name).restype = c_uint32
        for name in ("vino_sentence", "vino_refusal_sentence"):
            getattr(self._library, name).argtypes = [c_uint32, c_char_p]
            getattr(self._library, name).restype = None

    def load(self, image: bytes, first: bytes, second: Optional[bytes] = None) -> Plugin:
        """Loads a sealed image under one key of 32 bytes, or two. Raises `Refused`, or `MemoryError`."""
        keys = _Keys(2 if second else 1, _key(first), _key(second or bytes(32)))
        data = (c_uint8 * max(1, len(image)))(*image)
        loaded, place = (c_uint8 * max(1, len(image)))(), c_uint32()  # an image never needs more bytes than it has
        code = self._library.vino_load(keys, data, len(image), loaded, len(loaded), place)
        if code == NO_MEMORY:
            raise MemoryError
        if code:
            raise Refused(code, place.value, _sentence(self._library.vino_refusal_sentence, code))
        return Plugin(self._library, loaded)
