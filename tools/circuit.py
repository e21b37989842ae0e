"""A circuit's text as frames and wires: what stands where, by name.

`judge --explain` and `show` name wires by it. It decides nothing: whether a circuit keeps the rules is the proved code's answer,
and only frames that keep them are taken here. docs/FORMAT.md describes the format.
"""
from __future__ import annotations

import io
from dataclasses import dataclass, field

MOST_WORDS = 8192
MOST_WIRES = 8192
LAST_STAGE = 255
JUDGED_BYTES = 49152

KINDS = ("HEAD", "IN", "CON", "XOR", "NOT", "REG", "AND", "REF", "OUT")
HEAD, IN, CON, XOR, NOT, REG, AND, REF, OUT = range(len(KINDS))


def pairs(d: int) -> int:
    """The pairs i<j of d shares: the random bits of an AND or a REF."""
    return sum(range(d))


def frame_words(kind: int, d: int) -> int:
    """The words of a frame with d shares, its kind included."""
    return (2, 2, 4, 3, 2, 2, 2 + 2 * d, 2 + d, 1 + d)[kind]


def frame_wires(kind: int, d: int) -> int:
    """The wires that a frame makes with d shares."""
    return (0, d, 1, 1, 1, 1, 7 * d * (d - 1) + 4 * d, pairs(d) + 2 * d, 0)[kind]


@dataclass(frozen=True)
class Wire:
    """A wire: its frame, its name there, and the label and stage that frames see (None of an inner wire)."""

    frame: int
    kind: int
    name: str
    label: int | None
    stage: int | None
    stop: bool

    @property
    def inner(self) -> bool:
        return self.label is None


@dataclass
class Circuit:
    """What the frames so far have made."""

    d: int
    wires: list[Wire] = field(default_factory=list)
    frames: list[list[int]] = field(default_factory=list)
    inputs: int = 0
    randoms: int = 0

    def take(self, words: list[int]) -> None:
        """Adds a frame that keeps every rule."""
        kind, frame = words[0], len(self.frames)
        self.frames.append(words)
        if kind == IN:
            self.inputs += 1
            for i in range(self.d):
                self._open(frame, kind, f"in({i})", i, words[1], True)
        elif kind == CON:
            self._open(frame, kind, "con", words[1], words[3], True)
        elif kind in (XOR, NOT):
            first = self.wires[words[1]]
            self._open(frame, kind, KINDS[kind].lower(), first.label, first.stage, False)
        elif kind == REG:
            first = self.wires[words[1]]
            self._open(frame, kind, "reg", first.label, first.stage + 1, True)
        elif kind in (AND, REF):
            self._gadget(frame, words)

    def _open(self, frame: int, kind: int, name: str, label: int, stage: int, stop: bool) -> None:
        self.wires.append(Wire(frame, kind, name, label, stage, stop))

    def _gadget(self, frame: int, words: list[int]) -> None:
        """The wires of AND or REF: inner ones, then an output for each share. Capital letters are registers."""
        kind, stage = words[0], self.wires[words[2]].stage + 1
        for name in inner_names(kind, self.d):
            self.wires.append(Wire(frame, kind, name, None, None, name[0] == "r" or name[0].isupper()))
        letter = "c" if kind == AND else "S"
        for i in range(self.d):
            self._open(frame, kind, f"{letter}({i})", i, stage, kind == REF)
        self.randoms += pairs(self.d)


def inner_names(kind: int, d: int) -> list[str]:
    """The names of the inner wires of AND or REF, in the order made."""
    below = [f"({i},{j})" for i in range(d) for j in range(i + 1, d)]
    if kind == REF:
        return ["r" + pair for pair in below] + [f"s({i})" for i in range(d)]
    names = [letter + pair for pair in below for letter in "rR"]
    names += [f"{letter}({i})" for i in range(d) for letter in "BmM"]
    names += [f"{letter}({i},{j})" for i in range(d) for j in range(d) if i != j for letter in "uUvVwW"]
    return names


def lines_of(text: bytes) -> list[bytes]:
    """The text's lines, each with its line feed where it has one."""
    return io.BytesIO(text).readlines()


def words_of(line: bytes) -> list[int]:
    """The words of a line that is of the line's form."""
    return [int(word, 16) for word in line.split()]


def circuit_of(lines: list[bytes]) -> Circuit:
    """The circuit of lines that keep every rule, HEAD first."""
    frames = [words_of(line) for line in lines]
    circuit = Circuit(frames[0][1])
    for words in frames:
        circuit.take(words)
    return circuit
