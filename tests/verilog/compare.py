"""Holds the modules of `show verilog` to the proved call masked_clock, bit by bit: random circuits and S-boxes, fed the same random
bits clock by clock in the simulator Icarus Verilog and by the call.

    compare.py FOLDER    circuits, modules, feeds and the simulation are written there

Exit status: 0 where the simulator compiles all without a word and every value agrees, of every OUT and of every wire.
"""
from __future__ import annotations

import random
import subprocess
import sys
from collections import Counter
from concurrent.futures import ThreadPoolExecutor
from dataclasses import dataclass
from pathlib import Path

ROOT = Path(__file__).resolve().parents[2]
sys.path[:0] = [str(ROOT / "tools"), str(ROOT / "bindings" / "python")]

import masked
from circuit import HEAD, KINDS, OUT, Circuit, circuit_of, lines_of
from circuits import random_circuit, text_of

RANDOM_CIRCUITS, CLOCKS, SBOX_CLOCKS = 100, 40, 100
SBOXES = ("present-d2", "present-d3", "aes-d2")


@dataclass
class Case:
    """A circuit, the bits that it is fed on each clock, shares first, and the values of all wires that the call gave."""

    name: str
    circuit: Circuit
    feed: list[list[int]]
    values: list[bytes]

    @property
    def outputs(self) -> list[int]:
        """The OUTs' wires, OUT by OUT, label by label."""
        return [wire for words in self.circuit.frames if words[0] == OUT for wire in words[1:]]


def case_of(name: str, text: bytes, clocks: int, seed: int) -> Case:
    """A circuit run by the proved call on random bits."""
    table, circuit = masked.read_text(text), circuit_of(lines_of(text))
    generator, shares = random.Random(seed), circuit.d * circuit.inputs
    feed = [[generator.getrandbits(1) for _ in range(shares + circuit.randoms)] for _ in range(clocks)]
    bank, values, given = masked.new_bank(), bytearray(masked.MOST_WIRES), []
    for bits in feed:
        masked.clock(table, bits[:shares], bits[shares:], bank, values)
        given.append(bytes(values[:len(circuit.wires)]))
    return Case(name, circuit, feed, given)


def cases() -> list[Case]:
    made = [case_of(f"c{seed:03}", text_of(random_circuit(seed)).encode(), CLOCKS, seed) for seed in range(RANDOM_CIRCUITS)]
    for name in SBOXES:
        made.append(case_of(name.replace("-", "_"), (ROOT / "examples" / f"{name}.hex").read_bytes(), SBOX_CLOCKS, 7))
    return made


def joined(names: list[str]) -> str:
    """Verilog's row of bits, the last name the highest, so that it is printed backwards."""
    return "{" + ", ".join(reversed(names)) + "}"


def test_bench(case: Case) -> str:
    """A module that feeds the circuit's and prints, just before each rising edge, the OUTs and then all wires."""
    d, shares, clocks = case.circuit.d, case.circuit.d * case.circuit.inputs, len(case.feed)
    inputs = [(name, bits) for name, bits in (("shares", shares), ("tape", case.circuit.randoms)) if bits]
    outputs = [f"out{number}" for number in range(len(case.outputs) // d)]
    wires = [f"circuit.w{number}" for number in range(len(case.circuit.wires))]
    ports = ", ".join(f".{name}({name})" for name in ["clk"] + [name for name, _ in inputs] + outputs)
    total = shares + case.circuit.randoms
    rows = [f"module test_{case.name};", "  reg clk = 1'b0;", "  integer k;"]
    rows += [f"  reg [{bits - 1}:0] {name};" for name, bits in inputs] + [f"  wire [{d - 1}:0] {name};" for name in outputs]
    rows += [f"  reg [{total - 1}:0] feed [0:{clocks - 1}];"] if total else []
    rows += [f"  masked_{case.name} circuit ({ports});", "  initial begin"]
    rows += [f'    $readmemb("{case.name}.feed", feed);'] if total else []
    rows += [f"    for (k = 0; k < {clocks}; k = k + 1) begin"]
    rows += [f"      {joined([name for name, _ in inputs])} = feed[k];"] if total else []
    rows += [f'      #1 $display("{case.name} %b %b", {joined(outputs)}, {joined(wires)});',
             "      #1 clk = 1'b1;", "      #1 clk = 1'b0;", "    end", "  end", "endmodule", ""]
    return "\n".join(rows)


def write(case: Case, folder: Path) -> None:
    """The module as the command prints it, its test bench, and its feed, the first bit last."""
    text = folder / f"{case.name}.hex"
    text.write_text(text_of(case.circuit))
    shown = subprocess.run([ROOT / "show", "verilog", text], capture_output=True, text=True)
    if shown.returncode or shown.stderr:
        sys.exit(f"verilog: show verilog {text}: {shown.stderr}")
    (folder / f"{case.name}.v").write_text(shown.stdout + test_bench(case))
    (folder / f"{case.name}.feed").write_text("".join("".join(map(str, reversed(bits))) + "\n" for bits in case.feed))


def simulated(names: list[str], folder: Path) -> dict[str, list[tuple[str, str]]]:
    """What the simulator prints for each circuit, clock by clock: its OUTs and its wires, the first first."""
    done = subprocess.run(["iverilog", "-g2001", "-Wall", "-o", "all.vvp", *(f"{name}.v" for name in names)], cwd=folder,
                          stdout=subprocess.PIPE, stderr=subprocess.STDOUT, text=True)
    if done.returncode or done.stdout:
        sys.exit(f"verilog: Icarus Verilog says of the modules:\n{done.stdout[:2000]}")
    lines = subprocess.run(["vvp", "-n", "all.vvp"], cwd=folder, check=True, capture_output=True, text=True).stdout.splitlines()
    printed: dict[str, list[tuple[str, str]]] = {name: [] for name in names}
    for name, outputs, wires in map(str.split, lines):
        printed[name].append((outputs[::-1], wires[::-1]))
    return printed


def difference(case: Case, printed: list[tuple[str, str]]) -> str:
    """The first clock and bit in which the simulator differs; empty where it agrees."""
    if len(printed) != len(case.feed):
        return f"the simulator ran {len(printed)} clocks of {len(case.feed)}"
    for clock, (outputs, wires) in enumerate(printed):
        given = "".join(map(str, case.values[clock]))
        shown = "".join(given[wire] for wire in case.outputs)
        if outputs != shown:
            return f"clock {clock}: the OUTs show {outputs} in the simulator, {shown} by the call"
        if wires != given:
            wire = next(number for number, value in enumerate(given) if wires[number:number + 1] != value)
            return f"clock {clock}: wire {wire}, {case.circuit.wires[wire].name}, differs"
    return ""


def main() -> int:
    folder, made = Path(sys.argv[1]), cases()
    with ThreadPoolExecutor() as pool:
        list(pool.map(lambda case: write(case, folder), made))
    printed = simulated([case.name for case in made], folder)
    met: Counter[str] = Counter(KINDS[words[0]] for case in made for words in case.circuit.frames)
    failed = 0
    for case in made:
        told = difference(case, printed[case.name])
        failed += bool(told)
        if told:
            print(f"FAILED verilog: {case.name}, {folder}/{case.name}.hex: {told}")
    missing = [name for name in KINDS if not met[name]] + [f"d {d}" for d in range(2, 9) if all(case.circuit.d != d for case in made)]
    if missing:
        print(f"FAILED verilog: never met: {', '.join(missing)}")
    print("verilog: " + ", ".join(f"{name} {met[name]}" for name in KINDS if name != KINDS[HEAD]))
    clocks = sum(len(case.feed) for case in made)
    bits = sum(len(case.feed) * len(case.outputs) for case in made)
    wires = sum(len(case.feed) * len(case.circuit.wires) for case in made)
    print(f"verilog: {len(made)} circuits, {clocks:,} clocks, {bits:,} bits of OUTs and {wires:,} of wires compared; "
          f"{len(made) - failed} passed, {failed} failed")
    return 1 if failed or missing else 0


if __name__ == "__main__":
    sys.exit(main())
