"""Tries `show clocks` on examples that are fed random bits: what it lists is held to single evaluations, set by set. And `show verilog`
on every accepted example: each wire is there once, by number and name. Exit status: 0 where all passed."""
from __future__ import annotations

import random
import re
import subprocess
import sys
import unittest
from array import array
from pathlib import Path

ROOT = Path(__file__).resolve().parents[2]
sys.path[:0] = [str(ROOT / "tools"), str(ROOT / "bindings" / "python")]

import masked
from circuit import AND, IN, OUT, REF, Circuit, circuit_of, lines_of, pairs

EXAMPLES = ROOT / "examples"
FED = ("circuit-a", "circuit-a-later", "case-d-latency", "input-after-output", "refresh-d3", "product-of-three", "present-d2",
       "present-d4", "aes-d2")
SETS = 6


def shown(*words: str, given: str = "") -> list[str]:
    done = subprocess.run(["./show", *words], input=given, capture_output=True, text=True, cwd=ROOT, timeout=60)
    assert (done.returncode, done.stderr) == (0, ""), done
    return done.stdout.splitlines()


def stages_fed(circuit: Circuit, notes: array) -> tuple[list[int], list[int]]:
    """The stage of each share, and of each random bit."""
    shares, randoms = [], []
    for words in circuit.frames:
        if words[0] == IN:
            shares += [words[1]] * circuit.d
        elif words[0] in (AND, REF):
            row = words[2 + circuit.d] if words[0] == AND else words[2]
            randoms += [masked.place(notes, row).stage] * pairs(circuit.d)
    return shares, randoms


class Clocks(unittest.TestCase):
    def test_sets(self) -> None:
        """Every set that is fed in full comes out as a single evaluation gives it, at the OUTs and at every wire that has a stage."""
        for seed, name in enumerate(FED):
            with self.subTest(name):
                self.held_to_evaluations(name, random.Random(seed))

    def held_to_evaluations(self, name: str, draw: random.Random) -> None:
        text = (EXAMPLES / f"{name}.hex").read_bytes()
        table, circuit, notes = masked.read_text(text), circuit_of(lines_of(text)), masked.words([0] * masked.NOTES_WORDS)
        masked.check(table, notes)
        places = [masked.place(notes, wire) for wire in range(len(circuit.wires))]
        stages = stages_fed(circuit, notes)
        clocks = SETS + max(place.stage for place in places if place)
        feed = [[[draw.getrandbits(1) for _ in part] for part in stages] for _ in range(clocks)]
        lines = "".join(" ".join("".join(map(str, part)) or "-" for part in bits) + "\n" for bits in feed)
        rows = shown("clocks", f"examples/{name}.hex", "--feed", "-", "--wires", given=lines)
        matrix = [row.split()[-1] for row in rows[-len(circuit.wires):]]
        values, sums = bytearray(masked.MOST_WIRES), []
        for number in range(SETS):
            shares, tape = ([feed[number + stage][part][at] for at, stage in enumerate(stages[part])] for part in (0, 1))
            masked.evaluate(table, shares, tape, values)
            for wire, place in enumerate(places):
                if place:
                    self.assertEqual(values[wire], int(matrix[wire][number + place.stage]), (number, wire))
            self.assertEqual(self.outputs(circuit, values), self.listed(rows, number))
            secrets = "".join(str(sum(shares[at:at + circuit.d]) % 2) for at in range(0, len(shares), circuit.d))
            sums.append([str(number), secrets, "".join(row[2] for row in self.outputs(circuit, values))])
        at = rows.index("  set  " + "secrets".ljust(max(7, circuit.inputs)) + "  OUT sums")
        self.assertEqual(sums, [row.split() for row in rows[at + 1:at + 1 + SETS]])

    def outputs(self, circuit: Circuit, values: bytearray) -> list[list[str]]:
        """The line, the values and the sum of each OUT."""
        rows = [(frame + 1, [values[wire] for wire in words[1:]]) for frame, words in enumerate(circuit.frames) if words[0] == OUT]
        return [[str(line), "".join(map(str, bits)), str(sum(bits) % 2)] for line, bits in rows]

    def listed(self, rows: list[str], number: int) -> list[list[str]]:
        """The rows of the OUTs that show a set, in the order of their lines."""
        found = [re.search(r" line (\d+) +([01]+) +([01]) +(\d+|-)$", row) for row in rows]
        return sorted((list(row.groups()[:3]) for row in found if row and row[4] == str(number)), key=lambda row: int(row[0]))


class Verilog(unittest.TestCase):
    def test_wires(self) -> None:
        """Each wire is declared once with its name and its attribute, and driven once; every OUT has its port."""
        for line in (EXAMPLES / "expected.txt").read_text().splitlines():
            name, verdict = line.split("\t")
            if not verdict.startswith("accepted"):
                continue
            with self.subTest(name):
                circuit = circuit_of(lines_of((EXAMPLES / name).read_bytes()))
                module = "\n".join(shown("verilog", f"examples/{name}"))
                declared = re.findall(r"^  \(\* keep \*\) (?:wire w(\d+)|reg w(\d+) = 1'b0); // (\S+)$", module, re.MULTILINE)
                self.assertEqual([(str(number), wire.name) for number, wire in enumerate(circuit.wires)],
                                 [(wire or register, name) for wire, register, name in declared])
                driven = re.findall(r"^  (?:assign w(\d+) =|  w(\d+) <=)", module, re.MULTILINE)
                self.assertEqual(list(range(len(circuit.wires))), sorted(int(wire or register) for wire, register in driven))
                outputs = [wire for words in circuit.frames if words[0] == OUT for wire in words[1:]]
                self.assertEqual(outputs, [int(wire) for wire in re.findall(r"assign out\d+\[\d\] = w(\d+);", module)])


if __name__ == "__main__":
    unittest.main()
