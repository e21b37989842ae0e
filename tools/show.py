"""Shows what stands in a masked circuit: its wires, their values, what probes read and how often, what its outputs give clock by clock,
its plain circuit, its Verilog, and the text of a table. `./show --help` says more.

Verdicts, labels, stages, registers, values, readings, counts, clocks and texts are the proved calls' (bindings/python/masked.py), and so
is the yes or no on whole sharings; the names of wires are circuit.py's, the plain circuit is plain.py's, the Verilog verilog.py's.
"""
from __future__ import annotations

import argparse
import os
import signal
import subprocess
import sys
from array import array
from pathlib import Path

ROOT = Path(__file__).resolve().parents[1]
sys.path.insert(0, str(ROOT / "bindings" / "python"))

import clocks
import counts
import masked
import plain
import tables
import verilog
from circuit import IN, JUDGED_BYTES, KINDS, OUT, Circuit, circuit_of, lines_of
from explain import explanation, shown
from inputs import Inputs, finding, inputs_of
from options import STDIN, options_of
from outcomes import Refusal, Trouble, refusal
from rows import PLACE, place, probed

SHOWN, REFUSED, TROUBLE = range(3)


def read(name: str, most: int = JUDGED_BYTES + 1) -> bytes:
    """All of a file, up to so many bytes: of a text, as far as it is judged and a byte more."""
    try:
        if name == STDIN:
            if sys.stdin is None:
                raise Trouble("standard input is closed")
            return sys.stdin.buffer.read(most)
        with open(name, "rb") as file:
            return file.read(most)
    except OSError as error:
        raise Trouble(f"{name}: {error.strerror}") from None


def build() -> None:
    """Builds the library where it is missing, old or damaged."""
    if subprocess.run(["bash", str(ROOT / "tools" / "build"), "library", "show"], stdin=subprocess.DEVNULL).returncode:
        sys.exit(TROUBLE)
    try:
        masked.library()
    except OSError as error:
        raise Trouble(f"the library does not run on this machine: {error}") from None


def checked(name: str, text: bytes, notes: array) -> tuple[array, masked.Accepted]:
    """The table of a text and the check's answer, or the refusal explained."""
    try:
        table = masked.read_text(text[:JUDGED_BYTES])
        return table, masked.check(table, notes)
    except masked.Refused as refused:
        raise Refusal(f"{name}: {refused}\n{explanation(text, refused.rule, refused.frame, refused.word)}") from None


def yes(holds: bool) -> str:
    return "yes" if holds else "no"


def show_wires(circuit: Circuit, lines: list[bytes], notes: array, answer: masked.Accepted) -> list[str]:
    rows = [PLACE + "  label  stage  registered  stop"]
    numbers = iter(range(answer.wires))
    number = next(numbers, None)
    for frame, line in enumerate(lines):
        rows.append(f"line {frame + 1}: {shown(line)}")
        while number is not None and circuit.wires[number].frame == frame:
            known = masked.place(notes, number)
            label, stage, registered = ("inner", "-", "-") if known is None else (known.label, known.stage, yes(known.registered))
            rows.append(f"{place(number, circuit)}  {label:>5}  {stage:>5}  {registered:10}  {yes(circuit.wires[number].stop)}")
            number = next(numbers, None)
    rows.append(f"next wire {answer.wires} ({answer.wires:04X}), next free random number {answer.randoms} ({answer.randoms:04X})")
    return rows


def show_values(circuit: Circuit, values: bytearray) -> list[str]:
    rows = [PLACE + "  value"]
    rows += [f"{place(number, circuit)}  {values[number]:5}" for number in range(len(circuit.wires))]
    made: dict[int, list[int]] = {}
    for number, wire in enumerate(circuit.wires):
        made.setdefault(wire.frame, []).append(number)
    for frame, words in enumerate(circuit.frames):
        if words[0] not in (IN, OUT):
            continue
        row = made[frame] if words[0] == IN else words[1:]
        bits = [values[number] for number in row]
        wires = " ".join(map(str, row))
        rows.append(f"{KINDS[words[0]]} on line {frame + 1}: wires {wires}, shares {' '.join(map(str, bits))}, sum {sum(bits) % 2}")
    return rows


def show_reading(circuit: Circuit, probes: list[int], reading: bytearray) -> list[str]:
    rows = probed(probes, circuit) + [PLACE + "  value"]
    return rows + [f"{place(number, circuit)}  {value:5}" for number, value in enumerate(reading) if value != 2]


def evaluated(options: argparse.Namespace, circuit: Circuit, table: array, inputs: Inputs) -> list[str]:
    """The values, or the reading, by a proved call; its refusal in plain words."""
    values, reading = bytearray(masked.MOST_WIRES), bytearray(masked.MOST_WIRES)
    try:
        if options.command == "values":
            masked.evaluate(table, inputs.shares, inputs.tape, values)
            return show_values(circuit, values)
        masked.read_probes(table, inputs.shares, inputs.tape, probes_of(options), reading, values)
        return show_reading(circuit, options.probe, reading)
    except masked.Refused as refused:
        raise refusal(refused.rule, finding(refused.rule, refused.word, circuit, options, inputs)) from None


def probes_of(options: argparse.Namespace) -> list[int]:
    """The probes as words. No wire has the largest word, so a number past it is refused in its place."""
    return [min(probe, 0xFFFF) for probe in options.probe]


def counted(options: argparse.Namespace, circuit: Circuit, table: array) -> list[str]:
    """The counts of two sets, by the proved call; its refusal in plain words. Sets of different lengths are refused before: the call
    sees one list."""
    first, second = sets = options.secrets
    read = counts.read_wires(circuit, table, probes_of(options))
    try:
        if len(first) != len(second):
            raise masked.Refused(masked.Rule.SHARES_LENGTH, 0, 0)
        answer = masked.count(table, first + second, probes_of(options))
        return counts.listing(circuit, sets, options.probe, read, answer)
    except masked.Refused as refused:
        raise refusal(refused.rule, counts.finding(refused.rule, refused.word, circuit, sets, options.probe, read)) from None


def show_text(name: str, order: str) -> list[str]:
    """The lines of a table that a tool has written, by the proved call; its refusal in plain words."""
    data = read(name, tables.READ_BYTES)
    if len(data) % 2:
        raise Refusal(f"{name}: {tables.odd(data, order)}")
    build()
    table = tables.words_of(data, order)
    try:
        return masked.write_text(table).decode("ascii").splitlines()
    except masked.Refused as refused:
        raise Refusal(f"{name}: {refused}\n{tables.explanation(data, order, refused.rule, refused.frame, refused.word)}") from None


def run(options: argparse.Namespace) -> tuple[list[str], int]:
    """What is shown, and the exit status."""
    if options.command == "text":
        return show_text(options.file, "big" if options.big_endian else "little"), SHOWN
    text = read(options.file)
    feed = clocks.feed_of(options.feed, read(options.feed, clocks.MOST_BYTES + 1)) if options.command == "clocks" else []
    build()
    notes = masked.words([0] * masked.NOTES_WORDS)
    table, answer = checked(options.file, text, notes)
    lines = lines_of(text)
    circuit = circuit_of(lines)
    if options.command == "wires":
        return show_wires(circuit, lines, notes, answer), SHOWN
    if options.command == "counts":
        return counted(options, circuit, table), SHOWN
    if options.command == "plain":
        return plain.shown(options.file, circuit, table, lines), SHOWN
    if options.command == "verilog":
        return verilog.module(options.file, circuit, notes, answer), SHOWN
    if options.command == "clocks":
        clocked = clocks.Run(circuit, table, notes, options.wires)
        return clocked.listing(feed), REFUSED if clocked.refused else SHOWN
    inputs = inputs_of(options, circuit)
    rows = evaluated(options, circuit, table, inputs)
    return [inputs.drawn] + rows if inputs.drawn else rows, SHOWN


def say(text: str) -> None:
    if sys.stderr is not None:
        sys.stderr.write(f"show: {text}\n")


def status_of() -> int:
    """Does what the command's words ask; the exit status."""
    try:
        rows, status = run(options_of(sys.argv[1:]))
        sys.stdout.write("\n".join(rows) + "\n")
        return status
    except Refusal as refused:
        say(str(refused))
        return REFUSED
    except Trouble as trouble:
        say(str(trouble))
    except SystemExit as end:
        return end.code
    except KeyboardInterrupt:
        say("interrupted")
    return TROUBLE


def main() -> int:
    signal.signal(signal.SIGPIPE, signal.SIG_DFL)
    if sys.stdout is None:
        say("standard output is closed, so nothing can be shown")
        return TROUBLE
    try:
        status = status_of()
        sys.stdout.flush()
        return status
    except OSError as error:
        say(f"not all could be written: {error.strerror}")
        os._exit(TROUBLE)


if __name__ == "__main__":
    sys.exit(main())
