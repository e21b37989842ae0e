"""The proved calls of Hawdreth for Python, through their C names (include/masked.h). Standard library only.

    import masked
    table = masked.read_text(open("examples/circuit-a.hex", "rb").read())
    masked.check(table)                                        # Accepted(wires=28, randoms=1, latency=3)
    masked.check_sharings(table)                               # the same: it is made of whole sharings
    values = bytearray(masked.MOST_WIRES)
    masked.evaluate(table, [1, 0, 1, 1], [1], values)          # values[24] is 1
    reading = bytearray(masked.MOST_WIRES)
    masked.read_probes(table, [1, 0, 1, 1], [1], [24], reading)   # reading[8], [13], [17] are 1, 0, 0; the rest is 2
    bank = masked.new_bank()
    for _ in range(4):                                         # clocks 0 to 3; the OUT, at stage 3, shows set 0 on clock 3:
        masked.clock(table, [1, 0, 1, 1], [1], bank, values)   # values[26] and values[27] are 1, 1
    text = masked.write_text(table)                            # the bytes of examples/circuit-a.hex
    counted = masked.count(table, [0, 0, 1, 1], [26, 27])      # counted.rows[0] is (4, 0, 500, 0)

A refusal is raised as Refused, with the rule's number and its spot. Buffers that a call fills are lent by the caller (a bytearray,
an array of type code H for words, of I for counts); left out, one of the right size is made and thrown away. The bank of a run is
always lent. After a refusal they hold what include/masked.h says. The library is target/shared/libmasked.so of this repository, made
by `tools/build library`, or what the environment variable MASKED_LIBRARY names.
"""
from __future__ import annotations

import array
import ctypes
import enum
import os
from collections.abc import Iterable
from pathlib import Path
from typing import NamedTuple

MOST_WORDS = 8192
MOST_WIRES = 8192
NOTES_WORDS = 16384
TEXT_BYTES = 40960
COUNTS_NUMBERS = 1024
INNER = 0xFFFF
REGISTERED = 8
LIBRARY = Path(__file__).resolve().parents[2] / "target" / "shared" / "libmasked.so"


class Rule(enum.IntEnum):
    """The rules, by the names of include/masked.h."""

    TABLE_TOO_LONG = 1
    NOTES_TOO_SHORT = 2
    NO_HEAD = 3
    SHARE_COUNT = 4
    UNKNOWN_KIND = 5
    FRAME_LENGTH = 6
    OUT_OF_RANGE = 7
    WIRE_NOT_MADE = 8
    WIRE_INNER = 9
    WRONG_LABEL = 10
    WRONG_STAGE = 11
    WRONG_RANDOM = 12
    STAGE_TOO_HIGH = 13
    TOO_MANY_WIRES = 14
    SHARES_LENGTH = 15
    TAPE_LENGTH = 16
    BUFFER_TOO_SHORT = 17
    BYTE_NOT_A_BIT = 18
    NO_SUCH_PROBE = 19
    LINE_FORM = 20
    NO_ROOM = 21
    NOT_REGISTERED = 22
    TEXT_TOO_SHORT = 23
    TOO_MANY_PAIRS = 24
    TOO_MANY_WIRES_READ = 25
    NOT_A_SHARING = 26


class Accepted(NamedTuple):
    """An accepted circuit: its wires, its random bits, and its latency, the clocks from its first input to its last output."""

    wires: int
    randoms: int
    latency: int


class Counted(NamedTuple):
    """A count: the wires read, the combinations of their values, the pairs of sharing and tape of one set, and a row for each
    combination: the pairs that give it under the first set and under the second, then both as parts per thousand."""

    wires: int
    combinations: int
    pairs: int
    rows: list[tuple[int, ...]]


class Refused(Exception):
    """The first rule broken, and where: frame (of a text: line, from 0) and word, as include/masked.h says."""

    def __init__(self, rule: int, frame: int, word: int) -> None:
        super().__init__(f"refused {rule} frame {frame} word {word}")
        self.rule, self.frame, self.word = Rule(rule), frame, word


class Place(NamedTuple):
    """A wire's label and stage, and whether it is registered: made by an IN, a CON or a REG, or an output of a REF."""

    label: int
    stage: int
    registered: bool


def place(notes: array.array, wire: int) -> Place | None:
    """What the notes of a check say of a wire; None of an inner one."""
    first, stage = notes[2 * wire], notes[2 * wire + 1]
    return None if first == INNER else Place(first & ~REGISTERED, stage, bool(first & REGISTERED))


def check(table: Iterable[int], notes: array.array | None = None) -> Accepted:
    """masked_check: judges a table of 16-bit words. `notes`: 16,384 words, which `place` tells of a wire."""
    return _answer(_call("masked_check", 3, words(table), _words_for(notes)))


def check_sharings(table: Iterable[int], notes: array.array | None = None) -> Accepted:
    """masked_check_sharings: checks, then tells whether the circuit is made of whole sharings, so that each OUT's added shares are the
    plain circuit on the added inputs. That is a yes; the no is refused by rule NOT_A_SHARING (26). `notes`: as `check` leaves them."""
    return _answer(_call("masked_check_sharings", 3, words(table), _words_for(notes)))


def evaluate(table: Iterable[int], shares: Iterable[int], tape: Iterable[int], values: bytearray | None = None,
             notes: array.array | None = None) -> Accepted:
    """masked_evaluate: checks, then writes each wire's value. `values`: 8,192 bytes."""
    return _answer(_call("masked_evaluate", 3, words(table), _words_for(notes), bytes(shares), bytes(tape), _bytes_for(values)))


def clock(table: Iterable[int], shares: Iterable[int], tape: Iterable[int], bank: bytearray, values: bytearray | None = None,
          notes: array.array | None = None) -> Accepted:
    """masked_clock: checks, then runs one clock on its shares and random bits, and writes each wire's value. `bank`: 8,192 bytes,
    what the registers hold, moved on by the call; `new_bank()` before the first clock. A refusal is no clock."""
    return _answer(_call("masked_clock", 3, words(table), _words_for(notes), bytes(shares), bytes(tape), _bytes_for(values),
                         _writable(bank, 1)))


def new_bank() -> bytearray:
    """A bank whose registers all hold 0, for the first clock of a run."""
    return bytearray(MOST_WIRES)


def read_probes(table: Iterable[int], shares: Iterable[int], tape: Iterable[int], probes: Iterable[int],
                reading: bytearray | None = None, values: bytearray | None = None, notes: array.array | None = None) -> Accepted:
    """masked_read_probes: checks, evaluates, and writes what the probed wires read. `reading`: 8,192 bytes, a wire's value where
    it is read, 2 elsewhere."""
    return _answer(_call("masked_read_probes", 3, words(table), _words_for(notes), bytes(shares), bytes(tape), _bytes_for(values),
                         words(probes), _bytes_for(reading)))


def count(table: Iterable[int], secrets: Iterable[int], probes: Iterable[int], counts: array.array | None = None,
          notes: array.array | None = None) -> Counted:
    """masked_count: checks, then goes through all sharings and tapes of two sets of secret bits, the first set first in `secrets`.
    `counts`: 1,024 numbers, of which the rows fill the first."""
    counts = array.array("I", bytes(4 * COUNTS_NUMBERS)) if counts is None else _writable(counts, 4)
    numbers = _accepted(_call("masked_count", 3, words(table), _words_for(notes), bytes(secrets), words(probes), counts))
    return Counted(*numbers, [tuple(counts[at:at + 4]) for at in range(0, 4 * numbers[1], 4)])


def read_text(text: bytes, table: array.array | None = None) -> array.array:
    """masked_read_text: the words of a text. `table`: where they are written; left out, one of 8,192 words is made."""
    table = _words_for(table, MOST_WORDS)
    return table[:_accepted(_call("masked_read_text", 2, bytes(text), table))[0]]


def write_text(table: Iterable[int], text: bytearray | None = None, notes: array.array | None = None) -> bytes:
    """masked_write_text: checks, then writes a table's lines. `text`: where they are written, five bytes for each word; left out,
    one that any table fits is made."""
    text = _bytes_for(text, TEXT_BYTES)
    return bytes(text[:_accepted(_call("masked_write_text", 3, words(table), _words_for(notes), text))[0]])


def words(numbers: Iterable[int]) -> array.array:
    """16-bit words, as tables, notes and probes are."""
    return array.array("H", list(numbers))


def library() -> ctypes.CDLL:
    """The library, loaded once; its functions take pointers and lengths as in include/masked.h."""
    global _library
    if _library is None:
        path = Path(os.environ.get("MASKED_LIBRARY") or LIBRARY)
        if not path.is_file():
            raise FileNotFoundError(f"{path} is not there; `tools/build library` makes it")
        _library = ctypes.CDLL(str(path))
    return _library


_library: ctypes.CDLL | None = None


def _words_for(lent: array.array | None, count: int = NOTES_WORDS) -> array.array:
    return array.array("H", bytes(2 * count)) if lent is None else _writable(lent, 2)


def _bytes_for(lent: bytearray | None, count: int = MOST_WIRES) -> bytearray:
    return bytearray(count) if lent is None else _writable(lent, 1)


def _writable(lent: array.array | bytearray, size: int) -> array.array | bytearray:
    """A lent buffer whose elements have so many bytes: C is told how many there are and can check nothing."""
    view = memoryview(lent)
    if view.itemsize != size or view.readonly:
        raise TypeError(f"a writable buffer with elements of {size} bytes is wanted")
    return lent


def _call(name: str, numbers: int, *buffers: array.array | bytearray | bytes) -> tuple[int, list[int]]:
    """Calls a C name with each buffer as a pointer and a length; gives the result and the numbers written."""
    function = getattr(library(), name)
    function.restype = ctypes.c_uint64
    written = [ctypes.c_uint64() for _ in range(numbers)]
    arguments: list[object] = []
    for buffer in buffers:
        arguments += _slice(buffer)
    result = function(*arguments, *(ctypes.byref(number) for number in written))
    return result, [number.value for number in written]


def _slice(buffer: array.array | bytearray | bytes) -> tuple[object, ctypes.c_size_t]:
    """A buffer's pointer and its number of elements. Its memory is that of the object, so that calls write to it."""
    length = ctypes.c_size_t(len(buffer))
    if not len(buffer):
        return ctypes.c_void_p(None), length
    if isinstance(buffer, bytes):
        return ctypes.c_char_p(buffer), length
    return ctypes.byref((ctypes.c_char * memoryview(buffer).nbytes).from_buffer(buffer)), length


def _accepted(answer: tuple[int, list[int]]) -> list[int]:
    """The numbers of an accepted call; a refusal is raised."""
    result, numbers = answer
    if result:
        raise Refused(result, numbers[0], numbers[1])
    return numbers


def _answer(answer: tuple[int, list[int]]) -> Accepted:
    return Accepted(*_accepted(answer))
