"""Says why a circuit's text was refused: the rule's meaning, and what was found and wanted there.

    explain.py NAME RULE FRAME WORD < TEXT

The rule and the spot are the proved program's; what stands there is found by reading the text again. NAME is the file's name
where several are judged, or empty. `judge --explain` and `show` use it.
"""
from __future__ import annotations

import sys
from dataclasses import dataclass

import form
from circuit import (AND, CON, HEAD, JUDGED_BYTES, KINDS, LAST_STAGE, MOST_WIRES, MOST_WORDS, REF, XOR, Circuit, circuit_of,
                     frame_wires, frame_words, lines_of, words_of)

# What each rule asks, said once for judge, show and docs/FORMAT.md.
MEANINGS = {
    1: "the table has at most 8,192 words",
    2: "the notes have at least 16,384 words",
    3: "the first line is HEAD: two words, 0000 and the number of shares d",
    4: "the number of shares d is 2 to 8",
    5: "after HEAD a line's first word, the kind, is 0001 to 0008",
    6: "a line has as many words as its kind asks for",
    7: "a label is below d, a value is 0 or 1, a stage is at most 00FF",
    8: "a word that names a wire names one that an earlier line has made",
    9: "no word names a wire inside a gadget; only a gadget's outputs may be named",
    10: "the i-th wire of a row has label i, and both wires of an XOR have one label",
    11: "the wires of a row, and both wires of an XOR, stand at one stage; b of an AND stands one stage before a",
    12: "the first-random word is the number of random bits used so far, so that none is used twice",
    13: "no new wire stands at a stage over 255",
    14: "there are at most 8,192 wires",
    15: "the shares are d bytes for each IN; the secrets of a count are two bytes for each IN",
    16: "the tape is one byte for each random bit",
    17: "the buffers for values, for the reading and for the bank have at least 8,192 bytes, the one for counts at least 1,024 numbers",
    18: "every byte of the shares, of the tape and of the secrets, and every register's byte of the bank, is 0 or 1",
    19: "every probe names a wire of the circuit",
    20: "a line is words of four digits 0-9A-F, one space between, and a line feed behind the last",
    21: "the words of all lines fit a table of 8,192 words",
    22: "every wire that an OUT names is registered: made by an IN, a CON or a REG, or an output of a REF",
    23: "the buffer for the text has at least five bytes for each word of the table",
    24: "where a count is asked, the free bits are at most 16: d-1 shares of each IN, and the random bits",
    25: "where a count is asked, the probes read at most 8 wires",
    26: "where whole sharings are asked for, every frame but HEAD and OUT belongs to exactly one, and every row of AND, REF and OUT "
        "is one",
}


class Number(int):
    """A number that a sentence may show with its noun: `{words:word}` is `1 word` or `6 words`."""

    def __format__(self, spec: str) -> str:
        if spec.replace(" ", "").isalpha() and spec != "X":
            return f"{int(self):,} {spec}{'' if self == 1 else 's'}"
        return format(int(self), spec)


@dataclass
class Finding:
    """What was found and wanted: a sentence with places, and the facts that fill them."""

    sentence: str
    facts: dict[str, int | str]

    def __str__(self) -> str:
        return self.sentence.format(**{name: Number(fact) if isinstance(fact, int) else fact for name, fact in self.facts.items()})


@dataclass
class Spot:
    """A refused line: its words, the word at fault, and the circuit of the lines before it."""

    words: list[int]
    word: int
    circuit: Circuit

    @property
    def named(self) -> int:
        return self.words[self.word]

    @property
    def kind(self) -> int:
        return self.words[0]


def first_line(lines: list[bytes]) -> Finding:
    if not lines:
        return Finding("the text is empty", {"cause": "empty"})
    words = words_of(lines[0])
    if words[0] != HEAD:
        return Finding("the first word is {found:04X}, HEAD's is 0000", {"cause": "kind", "found": words[0]})
    return Finding("this line has {found:word}, HEAD has 2", {"cause": "words", "found": len(words)})


def shares(lines: list[bytes]) -> Finding:
    return Finding("the number of shares is {found} ({found:04X}), 2 to 8 is wanted", {"found": words_of(lines[0])[1]})


def kind(words: list[int]) -> Finding:
    if words[0] == HEAD:
        return Finding("the kind is {found:04X}, HEAD, which stands on the first line only", {"found": HEAD})
    return Finding("the kind is {found:04X}, 0001 to 0008 is wanted", {"found": words[0]})


def words_of_kind(words: list[int], d: int, here: str = "this line has {found}") -> Finding:
    facts = {"kind": words[0], "d": d, "wanted": frame_words(words[0], d), "found": len(words)}
    shares = " with {d:share}" if words[0] in (AND, REF, KINDS.index("OUT")) else ""
    return Finding(KINDS[words[0]] + shares + " has {wanted:word}, " + here, facts)


def room(lines: list[bytes], frame: int) -> Finding:
    before = sum(len(words_of(line)) for line in lines[:frame])
    words = len(words_of(lines[frame]))
    return Finding("the lines before have {before:word}, this line has {words}: {total:word}, and there is room for {most:,}",
                   {"before": before, "words": words, "total": before + words, "most": MOST_WORDS})


def out_of_range(spot: Spot) -> Finding:
    names = ("label", "value", "stage") if spot.kind == CON else ("stage",)
    name = names[spot.word - 1]
    most = {"label": spot.circuit.d - 1, "value": 1, "stage": LAST_STAGE}[name]
    return Finding("the " + name + " is {found} ({found:04X}), at most {most} ({most:04X}) is wanted",
                   {"cause": name, "found": spot.named, "most": most})


def not_made(spot: Spot) -> Finding:
    wires = len(spot.circuit.wires)
    facts = {"wire": spot.named, "wires": wires}
    if wires == 0:
        return Finding("it names wire {wire} ({wire:04X}), and no wire is made yet", facts)
    return Finding("it names wire {wire} ({wire:04X}), and {wires:wire} are made so far: the last is {last} ({last:04X})",
                   {**facts, "last": wires - 1})


def inner(spot: Spot) -> Finding:
    wires = spot.circuit.wires
    wire = wires[spot.named]
    outputs = [number for number, other in enumerate(wires) if other.frame == wire.frame and not other.inner]
    return Finding("wire {wire} ({wire:04X}) is {name} inside the " + KINDS[wire.kind] + " of line {line}, "
                   "whose outputs are wires {first} to {last} ({first:04X} to {last:04X})",
                   {"wire": spot.named, "name": wire.name, "line": wire.frame + 1, "first": outputs[0], "last": outputs[-1]})


def row_start(spot: Spot) -> int:
    """The place of the first word of the row that the word stands in."""
    d = spot.circuit.d
    if spot.kind not in (AND, REF):
        return 1
    return 2 + d if spot.word >= 2 + d else 2


def wrong_label(spot: Spot) -> Finding:
    wires = spot.circuit.wires
    facts = {"wire": spot.named, "found": wires[spot.named].label}
    if spot.kind == XOR:
        other = spot.words[1]
        return Finding("wire {wire} ({wire:04X}) has label {found}, and the first wire, {other} ({other:04X}), has label {wanted}",
                       {**facts, "other": other, "wanted": wires[other].label})
    return Finding("wire {wire} ({wire:04X}) has label {found}, and label {wanted} is wanted in this place of the row",
                   {**facts, "wanted": spot.word - row_start(spot)})


def wrong_stage(spot: Spot) -> Finding:
    wires, start = spot.circuit.wires, row_start(spot)
    facts = {"wire": spot.named, "found": wires[spot.named].stage}
    found = "wire {wire} ({wire:04X}) stands at stage {found}, and "
    moves = "; a REG moves a wire one stage later"
    if spot.kind == AND and start > 2:
        stage = wires[spot.words[2]].stage
        if stage == 0:
            return Finding(found + "b stands one stage before a, but a stands at stage {a}, the first" + moves,
                           {**facts, "a": stage})
        return Finding(found + "stage {wanted} is wanted, one before a, which stands at stage {a}" + moves,
                       {**facts, "wanted": stage - 1, "a": stage})
    other = spot.words[start]
    return Finding(found + "stage {wanted} is wanted, that of the first wire, {other} ({other:04X})" + moves,
                   {**facts, "wanted": wires[other].stage, "other": other})


def first_random(spot: Spot) -> Finding:
    return Finding("the first-random word is {found:04X}, and {wanted:04X} is wanted: {wanted:random bit} used so far",
                   {"found": spot.named, "wanted": spot.circuit.randoms})


def unregistered(spot: Spot) -> Finding:
    wire = spot.circuit.wires[spot.named]
    what = "{name}, an output of" if wire.kind == AND else "made by"
    later = ("a REG line for each wire of the row gives a registered row, one stage later" if wire.stage < LAST_STAGE
             else "no REG can follow, since stage 255 is the last")
    return Finding("wire {wire} ({wire:04X}) is " + what + " the " + KINDS[wire.kind] + " of line {line}; it is not registered; " + later,
                   {"wire": spot.named, "kind": wire.kind, "line": wire.frame + 1, "name": wire.name})


def late_stage(spot: Spot) -> Finding:
    place = 2 if spot.kind in (AND, REF) else 1
    stage = spot.circuit.wires[spot.words[place]].stage
    return Finding(KINDS[spot.kind] + " of a wire at stage {before} would make one at stage {stage}; the last stage is {most}",
                   {"before": stage, "stage": stage + 1, "most": LAST_STAGE})


def many_wires(spot: Spot) -> Finding:
    wires, makes = len(spot.circuit.wires), frame_wires(spot.kind, spot.circuit.d)
    return Finding("there are {wires:wire}, and this " + KINDS[spot.kind] + " would make {makes} more: {total:,}, over {most:,}",
                   {"wires": wires, "makes": makes, "total": wires + makes, "most": MOST_WIRES})


OF_THE_CHECK = {7: out_of_range, 8: not_made, 9: inner, 10: wrong_label, 11: wrong_stage, 12: first_random, 13: late_stage,
                14: many_wires, 22: unregistered}


def finding(text: bytes, rule: int, frame: int, word: int) -> Finding:
    """What was found and wanted where a text broke a rule, by the rule and the spot that the proved code gave."""
    judged = text[:JUDGED_BYTES]
    lines = lines_of(judged)
    if rule == 3:
        return first_line(lines)
    if rule == 4:
        return shares(lines)
    if rule == 20:
        d = words_of(lines[0])[1] if frame > 0 else 0
        return Finding(*form.fault(lines[frame], frame == 0, d, len(text) > JUDGED_BYTES and frame == len(lines) - 1))
    if rule == 5:
        return kind(words_of(lines[frame]))
    if rule == 6:
        return words_of_kind(words_of(lines[frame]), words_of(lines[0])[1])
    if rule == 21:
        return room(lines, frame)
    return OF_THE_CHECK[rule](Spot(words_of(lines[frame]), word, circuit_of(lines[:frame])))


def shown(line: bytes) -> str:
    """A line as it can be printed: at most 120 characters, other bytes as question marks."""
    text = "".join(chr(byte) if 32 <= byte < 127 else "?" for byte in line.rstrip(b"\n"))
    return text if len(text) <= 120 else text[:117] + "..."


def told(rule: int, word: int, found: Finding, name: str = "") -> list[str]:
    """The rule, and what was found; `name` stands in front where several files are judged."""
    place = f"word {word}: " if 7 <= rule <= 12 or rule == 22 else ""
    return [f"{name}: rule {rule}: {MEANINGS[rule]}" if name else f"  rule {rule}: {MEANINGS[rule]}", f"  here: {place}{found}"]


def line_row(lines: list[bytes], frame: int) -> str:
    """A line of the file, as the row of an explanation."""
    line = shown(lines[frame]) if frame < len(lines) else ""
    return f"  line {frame + 1} of the file (frame {frame}): {line or '(empty)'}"


def explanation(text: bytes, rule: int, frame: int, word: int, name: str = "") -> str:
    """The lines that explain a text's refusal by any rule but 26, which is no text's."""
    rows = told(rule, word, finding(text, rule, frame, word), name)
    rows.append(line_row(lines_of(text[:JUDGED_BYTES]), frame))
    if text[:2] == b"\0\0":
        rows.append("  hint: the file begins with two bytes 00, as a table of 16-bit words does; ./show text takes one")
    return "\n".join(rows)


def main() -> int:
    name, (rule, frame, word) = sys.argv[1], map(int, sys.argv[2:5])
    sys.stderr.write(explanation(sys.stdin.buffer.read(), rule, frame, word, name) + "\n")
    return 0


if __name__ == "__main__":
    sys.exit(main())
