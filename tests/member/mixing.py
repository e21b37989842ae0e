"""Random circuits for the test of `show plain`: made of whole sharings, every kind of frame among them; and the same with one or two
changes that the checker does not mind."""
from __future__ import annotations

import random

import masked
from circuit import AND, CON, HEAD, IN, NOT, OUT, REF, REG, XOR, Circuit

WEIGHTS = {IN: 2, CON: 3, XOR: 6, NOT: 4, REG: 5, AND: 2, REF: 2, OUT: 2}
MOST_INPUTS = 5


class Maker:
    """A circuit of whole sharings that grows sharing by sharing."""

    def __init__(self, draw: random.Random) -> None:
        self.draw, self.d = draw, draw.choice((2, 2, 3, 3, 4, 5, 8))
        self.circuit = Circuit(self.d)
        self.rows: list[list[int]] = []
        self.circuit.take([HEAD, self.d])
        self.add(IN, 1)

    def add(self, *words: int) -> list[int]:
        """Adds a frame; gives the wires that later frames may name."""
        before = len(self.circuit.wires)
        self.circuit.take(list(words))
        row = [number for number in range(before, len(self.circuit.wires)) if not self.circuit.wires[number].inner]
        if len(row) == self.d:
            self.rows.append(row)
        return row

    def run(self, kind: int, *rows: list[int]) -> None:
        self.rows.append([self.add(kind, *words)[0] for words in zip(*rows)])

    def stage(self, row: list[int]) -> int:
        return self.circuit.wires[row[0]].stage

    def at(self, stage: int) -> list[list[int]]:
        return [row for row in self.rows if self.stage(row) == stage]

    def grow(self, kind: int) -> None:
        """Adds a sharing or an OUT, where one of this kind can be had."""
        row = self.draw.choice(self.rows)
        stage = self.stage(row)
        if kind == IN and self.circuit.inputs < MOST_INPUTS:
            self.add(IN, self.draw.randrange(3))
        elif kind == CON:
            self.rows.append([self.add(CON, label, self.draw.randrange(2), stage)[0] for label in range(self.d)])
        elif kind in (NOT, REG):
            self.run(kind, row)
        elif kind == XOR:
            self.run(XOR, row, self.draw.choice(self.at(stage)))
        elif kind == AND and stage and self.at(stage - 1):
            self.add(AND, self.circuit.randoms, *row, *self.draw.choice(self.at(stage - 1)))
        elif kind == REF:
            self.add(REF, self.circuit.randoms, *row)
        elif kind == OUT and self.circuit.wires[row[0]].stop:
            self.add(OUT, *row)


def whole(draw: random.Random) -> Circuit:
    maker = Maker(draw)
    for kind in draw.choices(list(WEIGHTS), list(WEIGHTS.values()), k=draw.randrange(1, 16)):
        maker.grow(kind)
    return maker.circuit


def mixed(draw: random.Random) -> Circuit:
    """A circuit with changes; where the checker refuses it, another one is made."""
    while True:
        circuit = whole(draw)
        frames = [list(words) for words in circuit.frames]
        if draw.randrange(2):
            rename(draw, circuit, frames)
        else:
            for _ in range(draw.choice((1, 1, 2))):
                change(draw, frames)
        table = [word for words in frames for word in words]
        try:
            masked.check(table)
        except masked.Refused:
            continue
        circuit = Circuit(table[1])
        for words in frames:
            circuit.take(words)
        return circuit


def rename(draw: random.Random, circuit: Circuit, frames: list[list[int]]) -> None:
    """Has a word, mostly of a row, name another wire of the same label and stage, where there is one before."""
    rows = [at for at, words in enumerate(frames) if words[0] in (AND, REF, OUT)]
    at = draw.choice(rows) if rows and draw.randrange(3) else draw.randrange(1, len(frames))
    words = frames[at]
    if words[0] in (IN, CON):
        return
    word = draw.randrange(2 if words[0] in (AND, REF) else 1, len(words))
    wire = circuit.wires[words[word]]
    words[word] = draw.choice([number for number, other in enumerate(circuit.wires)
                               if other.frame < at and (other.label, other.stage) == (wire.label, wire.stage)])


def change(draw: random.Random, frames: list[list[int]]) -> None:
    """Takes a frame away, doubles one elsewhere, swaps two neighbours, or adds to a word."""
    at = draw.randrange(1, len(frames))
    what = draw.randrange(6)
    if what == 0 and len(frames) > 2:
        frames.pop(at)
    elif what == 1 and at > 1:
        frames[at - 1], frames[at] = frames[at], frames[at - 1]
    elif what == 2:
        frames.insert(at, list(draw.choice(frames[1:])))
    elif what == 3 and len(frames) > 2:
        frames.pop()
    else:
        word = draw.randrange(1, len(frames[at]))
        frames[at][word] = max(0, frames[at][word] + draw.choice((-2, -1, 1, 2)))
