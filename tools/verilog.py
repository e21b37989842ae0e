"""An accepted circuit as a module in Verilog-2001, which `show verilog` prints.

The module is not proved: tests/verilog holds such modules to the proved call masked_clock in a simulator.
"""
from __future__ import annotations

import re
from array import array
from pathlib import PurePath
from typing import NamedTuple

import masked
from circuit import AND, CON, IN, KINDS, NOT, OUT, REF, REG, XOR, Circuit
from clocks import End, ends_of
from explain import Number, shown

ABOUT = """Registers take their inputs on the rising edge of clk, and hold 0 at the start. Give shares and tape of clock k, and read the
outputs, before the edge that ends it: they are then what ./show clocks shows.

For simulation, or as a start for synthesis. Synthesis has to obey the attribute keep of every wire: where wires are merged, or gates
moved across registers, shares may meet, and nothing that is proved of the circuit holds of the result. This text is not proved; such
modules are compared with the proved code in a simulator. That fewer than d probes tell nothing of the secrets is proved of single
evaluations, not of what a probe sees over several clocks."""


class Driver(NamedTuple):
    """What gives a wire its value: an expression, or a register of one."""

    value: str
    register: bool = False


def module_name(file: str) -> str:
    """The file's name without its ending; the word in front keeps it apart from the words of Verilog."""
    return "masked_" + re.sub(r"[^A-Za-z0-9_]", "_", PurePath(file).stem)


def product(d: int, at: dict[str, str], a: list[str], b: list[str], first: int) -> dict[str, Driver]:
    """The wires of AND by name; `at` has what they are called in Verilog, `first` is the first random bit."""
    drivers = {}
    below = [(i, j) for i in range(d) for j in range(i + 1, d)]
    for bit, (i, j) in enumerate(below):
        drivers[f"r({i},{j})"] = Driver(f"tape[{first + bit}]")
        drivers[f"R({i},{j})"] = Driver(at[f"r({i},{j})"], register=True)
    for i in range(d):
        drivers[f"B({i})"] = Driver(b[i], register=True)
        drivers[f"m({i})"] = Driver(f"{a[i]} & {at[f'B({i})']}")
        drivers[f"M({i})"] = Driver(at[f"m({i})"], register=True)
        others = [j for j in range(d) if j != i]
        for j in others:
            pair = f"({min(i, j)},{max(i, j)})"
            drivers[f"u({i},{j})"] = Driver(f"~{a[i]} & {at['R' + pair]}")
            drivers[f"v({i},{j})"] = Driver(f"{b[j]} ^ {at['r' + pair]}")
            drivers[f"w({i},{j})"] = Driver(f"{a[i]} & {at[f'V({i},{j})']}")
            for letter in "uvw":
                drivers[f"{letter.upper()}({i},{j})"] = Driver(at[f"{letter}({i},{j})"], register=True)
        terms = [f"M({i})"] + [f"U({i},{j})" for j in others] + [f"W({i},{j})" for j in others]
        drivers[f"c({i})"] = Driver(" ^ ".join(at[term] for term in terms))
    return drivers


def refresh(d: int, at: dict[str, str], row: list[str], first: int) -> dict[str, Driver]:
    """The wires of REF by name."""
    below = [(i, j) for i in range(d) for j in range(i + 1, d)]
    drivers = {f"r({i},{j})": Driver(f"tape[{first + bit}]") for bit, (i, j) in enumerate(below)}
    for i in range(d):
        randoms = [at[f"r({min(i, j)},{max(i, j)})"] for j in range(d) if j != i]
        drivers[f"s({i})"] = Driver(" ^ ".join([row[i]] + randoms))
        drivers[f"S({i})"] = Driver(at[f"s({i})"], register=True)
    return drivers


def drivers_of(circuit: Circuit, frame: int, numbers: list[int], end: End | None) -> list[Driver]:
    """What drives each wire of a frame, in the order made."""
    d, (kind, *words) = circuit.d, circuit.frames[frame]
    if kind == IN:
        return [Driver(f"shares[{end.first + i}]") for i in range(d)]
    if kind == CON:
        return [Driver(f"1'b{words[1]}")]
    if kind == XOR:
        return [Driver(f"w{words[0]} ^ w{words[1]}")]
    if kind in (NOT, REG):
        return [Driver(f"~w{words[0]}") if kind == NOT else Driver(f"w{words[0]}", register=True)]
    if kind not in (AND, REF):
        return []
    names = [circuit.wires[number].name for number in numbers]
    at = dict(zip(names, (f"w{number}" for number in numbers)))
    rows = [f"w{word}" for word in words[1:]]
    by_name = product(d, at, rows[:d], rows[d:], end.first) if kind == AND else refresh(d, at, rows, end.first)
    return [by_name[name] for name in names]


def line_row(circuit: Circuit, frame: int) -> str:
    words = circuit.frames[frame]
    return f"  // line {frame + 1}, {KINDS[words[0]]}: {' '.join(f'{word:04X}' for word in words)}"


def frame_rows(circuit: Circuit, frame: int, numbers: list[int], drivers: list[Driver]) -> list[str]:
    """The wires of a frame: declared, then driven."""
    rows = ["", line_row(circuit, frame)]
    for number, driver in zip(numbers, drivers):
        kind = f"reg w{number} = 1'b0;" if driver.register else f"wire w{number};"
        rows.append(f"  (* keep *) {kind} // {circuit.wires[number].name}")
    rows += [f"  assign w{number} = {driver.value};" for number, driver in zip(numbers, drivers) if not driver.register]
    stored = [f"    w{number} <= {driver.value};" for number, driver in zip(numbers, drivers) if driver.register]
    return rows + (["  always @(posedge clk) begin"] + stored + ["  end"] if stored else [])


def port(end: End, output: int) -> str:
    """The bits of a port that belong to an IN, a gadget or an OUT; `output` is the number of the OUTs before."""
    name = {IN: "shares", AND: "tape", REF: "tape"}.get(end.kind, f"out{output}")
    last = end.first + end.count - 1
    return f"{name}[{last}:{end.first}]" if last > end.first else f"{name}[{last}]"


def about(file: str, circuit: Circuit, answer: masked.Accepted, ends: list[End]) -> list[str]:
    """The comment on top: the circuit, and what each bit of the ports is."""
    rows = [f"Masked circuit, written by ./show verilog from {shown(file.encode(errors='replace'))}.",
            f"{circuit.d} shares (d), {Number(answer.wires):wire}, {Number(answer.randoms):random bit}, latency {answer.latency}",
            "", "Ports beside clk, in the order of the calls' bytes, the first byte being bit 0: shares, IN by IN, label by label;",
            "tape; an output for each OUT, bit i its wire of label i. Which set the bits of clock k belong to:"]
    outputs = 0
    for end in ends:
        rows.append(f"  {port(end, outputs):16}{KINDS[end.kind]:4}on line {end.frame + 1:<5} stage {end.stage:<4} set {end.told_set}")
        outputs += end.kind == OUT
    return [f"// {row}".rstrip() for row in rows + [""] + ABOUT.split("\n")]


def module(file: str, circuit: Circuit, notes: array, answer: masked.Accepted) -> list[str]:
    """The rows of the module."""
    ends = ends_of(circuit, notes)
    by_frame = {end.frame: end for end in ends}
    outputs = [end.frame for end in ends if end.kind == OUT]
    numbers: dict[int, list[int]] = {}
    for number, wire in enumerate(circuit.wires):
        numbers.setdefault(wire.frame, []).append(number)
    ports = ["input wire clk"]
    ports += [f"input wire [{bits - 1}:0] {name}" for name, bits in
              (("shares", circuit.d * circuit.inputs), ("tape", circuit.randoms)) if bits]
    ports += [f"output wire [{circuit.d - 1}:0] out{number}" for number in range(len(outputs))]
    rows = about(file, circuit, answer, ends) + [f"module {module_name(file)} ("]
    rows += [f"  {port}," for port in ports[:-1]] + [f"  {ports[-1]}", ");"]
    for frame, made in numbers.items():
        rows += frame_rows(circuit, frame, made, drivers_of(circuit, frame, made, by_frame.get(frame)))
    for number, frame in enumerate(outputs):
        rows += ["", line_row(circuit, frame)]
        rows += [f"  assign out{number}[{i}] = w{wire};" for i, wire in enumerate(circuit.frames[frame][1:])]
    return rows + ["", "endmodule"]
