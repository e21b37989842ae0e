"""The whole sharings of an accepted circuit, found in table order, and the first frame that fits none, in plain words.

Whether every frame fits is the proved call's answer (masked_check_sharings). `show plain` takes from here what the sharings are, and
stops where the two disagree. docs/FORMAT.md says what a whole sharing is.
"""
from __future__ import annotations

from dataclasses import dataclass

from circuit import AND, CON, IN, KINDS, NOT, OUT, REF, REG, XOR, Circuit
from explain import Finding

# The kinds that make one wire, so that a sharing is a run of d frames.
IN_RUNS = (CON, XOR, NOT, REG)


@dataclass(frozen=True)
class Sharing:
    """d wires, the i-th with label i: the frames that make them, and the numbers of the sharings that these take. `number` is that of
    an IN among the INs, or the sum of constants modulo 2; else it is 0."""

    kind: int
    frames: range
    wires: range
    parts: tuple[int, ...]
    number: int

    def __str__(self) -> str:
        """Its frames by their lines."""
        if len(self.frames) == 1:
            return f"the {KINDS[self.kind]} of line {self.frames[0] + 1}"
        return f"the {KINDS[self.kind]}s of lines {self.frames[0] + 1} to {self.frames[-1] + 1}"


class Mixed(Exception):
    """A frame that fits no sharing, or begins a run that is none: its number, what was found, and the frame where that shows."""

    def __init__(self, frame: int, found: Finding, shows: int) -> None:
        super().__init__(str(found))
        self.frame, self.found, self.shows = frame, found, shows


class Sharings:
    """The sharings of a circuit, and the OUTs: each one's frame, and the number of its sharing."""

    def __init__(self, circuit: Circuit) -> None:
        """Raises Mixed at the first frame, or at the first one of a run, that fits none."""
        self.circuit, self.inputs = circuit, 0
        self.found: list[Sharing] = []
        self.outputs: list[tuple[int, int]] = []
        self._number_of: dict[int, int] = {}
        self._made: dict[int, list[int]] = {}
        for number, wire in enumerate(circuit.wires):
            if not wire.inner:
                self._made.setdefault(wire.frame, []).append(number)
        frame = 1
        while frame < len(circuit.frames):
            frame += self._run(frame) if circuit.frames[frame][0] in IN_RUNS else self._single(frame)

    def _single(self, frame: int) -> int:
        """IN, AND, REF and OUT, each a frame by itself."""
        kind, d = self.circuit.frames[frame][0], self.circuit.d
        rows = {AND: ((2, "row a"), (2 + d, "row b")), REF: ((2, "the row"),), OUT: ((1, "the row"),)}.get(kind, ())
        parts = tuple(self._row(frame, start, name) for start, name in rows)
        if kind == OUT:
            self.outputs.append((frame, parts[0]))
        else:
            self._add(frame, 1, parts, self.inputs if kind == IN else 0)
        self.inputs += kind == IN
        return 1

    def _row(self, frame: int, start: int, name: str) -> int:
        """The number of the sharing that a row is."""
        words = self.circuit.frames[frame]
        first = self._number_of[words[start]]
        for word in range(start, start + self.circuit.d):
            if self._number_of[words[word]] != first:
                raise Mixed(frame, Finding(
                    name + " of this " + KINDS[words[0]] + " is no sharing: word {start} names wire {wire} ({wire:04X}), of {first}, "
                    "but word {word} names wire {found} ({found:04X}), of {other}, where wire {wanted} ({wanted:04X}) is wanted",
                    {"start": start, "wire": words[start], "first": str(self.found[first]), "word": word, "found": words[word],
                     "other": self._maker(words[word]), "wanted": self.found[first].wires[word - start]}), frame)
        return first

    def _run(self, first: int) -> int:
        """A run of d frames of one kind."""
        d = self.circuit.d
        for frame in range(first, first + d):
            misfit = self._misfit(first, frame)
            if misfit:
                kind = KINDS[self.circuit.frames[first][0]]
                run = Finding("this line has to begin a run of {d} " + kind + "s with labels 0 to {last}, but " + misfit.sentence,
                              {"d": d, "last": d - 1, **misfit.facts})
                raise Mixed(first, run, min(frame, len(self.circuit.frames) - 1))
        frames = self.circuit.frames[first:first + d]
        if frames[0][0] == CON:
            self._add(first, d, (), sum(words[2] for words in frames) % 2)
        else:
            self._add(first, d, tuple(self._number_of[wire] for wire in frames[0][1:]))
        return d

    def _misfit(self, first: int, frame: int) -> Finding | None:
        """Why a frame does not belong to the run that another one begins; None where it does."""
        frames, line = self.circuit.frames, frame + 1
        if frame == len(frames):
            return Finding("line {line} is the last" if frame > first + 1 else "it is the last line", {"line": frame})
        kind = frames[first][0]
        if frames[frame][0] != kind:
            article = "an" if frames[frame][0] in (IN, XOR, AND, OUT) else "a"
            return Finding("line {line} is " + f"{article} {KINDS[frames[frame][0]]}", {"line": line})
        start, wire = (self.circuit.wires[self._made[at][0]] for at in (first, frame))
        if wire.label != frame - first:
            whose = "the wire of line {line}" if frame > first else "its wire"
            return Finding(whose + " has label {found}, where label {wanted} is wanted",
                           {"line": line, "found": wire.label, "wanted": frame - first})
        if kind == CON:
            return None if wire.stage == start.stage else Finding(
                "line {line} stands at stage {found}, where stage {wanted} is wanted, that of this line",
                {"line": line, "found": wire.stage, "wanted": start.stage})
        return self._misnamed(first, frame)

    def _misnamed(self, first: int, frame: int) -> Finding | None:
        """A word of a frame in a run that names a wire of another sharing than the run's first frame does."""
        begins, words = self.circuit.frames[first], self.circuit.frames[frame]
        for word in range(1, len(words)):
            sharing = self.found[self._number_of[begins[word]]]
            if words[word] not in sharing.wires:
                return Finding("word {word} of line {line} names wire {found} ({found:04X}), of {other}, where wire {wanted} "
                               "({wanted:04X}) is wanted, of {sharing}",
                               {"word": word, "line": frame + 1, "found": words[word], "other": self._maker(words[word]),
                                "wanted": sharing.wires[frame - first], "sharing": str(sharing)})
        return None

    def _maker(self, wire: int) -> str:
        return str(self.found[self._number_of[wire]])

    def _add(self, frame: int, frames: int, parts: tuple[int, ...], number: int = 0) -> None:
        wires = [wire for at in range(frame, frame + frames) for wire in self._made[at]]
        self._number_of.update((wire, len(self.found)) for wire in wires)
        kind = self.circuit.frames[frame][0]
        self.found.append(Sharing(kind, range(frame, frame + frames), range(wires[0], wires[-1] + 1), parts, number))

