"""Random circuits that keep every rule, for the comparison with a simulator: all kinds of frames, 2 to 8 shares, rows of wires picked
here and there, several stages and OUTs."""
from __future__ import annotations

import random

from circuit import AND, CON, HEAD, IN, NOT, OUT, REF, REG, XOR, Circuit

# How often each kind is added, against the others.
WEIGHTS = {IN: 2, CON: 2, XOR: 6, NOT: 3, REG: 4, AND: 3, REF: 2, OUT: 1}
MOST_WIRES = 900


class Maker:
    """A circuit that grows frame by frame."""

    def __init__(self, generator: random.Random, d: int) -> None:
        self.draw, self.circuit = generator, Circuit(d)
        self.add(HEAD, d)

    def add(self, *words: int) -> list[int]:
        """Adds a frame; gives the wires that later frames may name."""
        before = len(self.circuit.wires)
        self.circuit.take(list(words))
        return [number for number in range(before, len(self.circuit.wires)) if not self.circuit.wires[number].inner]

    def wires(self, label: int | None = None, stage: int | None = None) -> list[int]:
        """The wires that frames may name, of a label and of a stage where these are given."""
        return [number for number, wire in enumerate(self.circuit.wires)
                if not wire.inner and label in (None, wire.label) and stage in (None, wire.stage)]

    def row(self, stage: int) -> list[int] | None:
        """A wire of each label, picked at random; None where one is missing."""
        columns = [self.wires(label, stage) for label in range(self.circuit.d)]
        return [self.draw.choice(column) for column in columns] if all(columns) else None

    def any_row(self) -> list[int]:
        """A row of a random stage that has one."""
        stages = sorted({wire.stage for wire in self.circuit.wires if not wire.inner})
        return self.draw.choice([row for row in map(self.row, stages) if row])

    def stage(self, wire: int) -> int:
        return self.circuit.wires[wire].stage

    def registers(self, row: list[int]) -> list[int]:
        return [self.add(REG, wire)[0] for wire in row]

    def first_row(self) -> None:
        """The shares of a secret or, in one circuit of eight, constants alone."""
        stage = self.draw.randrange(3)
        if self.draw.randrange(8):
            self.add(IN, stage)
            return
        for label in range(self.circuit.d):
            self.add(CON, label, self.draw.randrange(2), stage)

    def grow(self, kind: int) -> None:
        """Adds a frame of a kind, behind the REGs that it needs."""
        wire = self.draw.choice(self.wires())
        if kind == IN:
            self.add(IN, self.draw.randrange(5))
        elif kind == CON:
            self.add(CON, self.draw.randrange(self.circuit.d), self.draw.randrange(2), self.stage(wire))
        elif kind == XOR:
            self.add(XOR, wire, self.draw.choice(self.wires(self.circuit.wires[wire].label, self.stage(wire))))
        elif kind in (NOT, REG):
            self.add(kind, wire)
        elif kind == REF:
            self.add(REF, self.circuit.randoms, *self.any_row())
        elif kind == AND:
            b = self.any_row()
            a = self.row(self.stage(b[0]) + 1) or self.registers(self.row(self.stage(b[0])))
            self.add(AND, self.circuit.randoms, *a, *b)
        else:
            self.add(OUT, *self.registers(self.any_row()))

    def finish(self) -> None:
        """An OUT of the last row, and one of wires that are registered already where a row of them is found."""
        rows = [row for row in map(self.row, range(256)) if row]
        self.add(OUT, *self.registers(rows[-1]))
        row = self.any_row()
        if all(self.circuit.wires[wire].stop for wire in row):
            self.add(OUT, *row)


def random_circuit(seed: int) -> Circuit:
    """A circuit; the seed chooses the number of shares in turn, and all else at random."""
    generator = random.Random(seed)
    maker = Maker(generator, 2 + seed % 7)
    maker.first_row()
    for _ in range(generator.randrange(4, 30)):
        if len(maker.circuit.wires) > MOST_WIRES:
            break
        maker.grow(generator.choices(list(WEIGHTS), list(WEIGHTS.values()))[0])
    maker.finish()
    return maker.circuit


def text_of(circuit: Circuit) -> str:
    return "".join(" ".join(f"{word:04X}" for word in words) + "\n" for words in circuit.frames)
