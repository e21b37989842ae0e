"""Tries `show plain`: on the examples, whose answers are held to the table of examples/README.md, and whose S-boxes to the S-boxes' own
tables; and on random circuits, whole and mixed. There the tool's sharings are held to the proved call, and each sharing's added shares
to its plain bit. Exit status: 0 where all passed."""
from __future__ import annotations

import random
import re
import subprocess
import sys
import unittest
from collections import Counter
from pathlib import Path
from unittest import mock

ROOT = Path(__file__).resolve().parents[2]
sys.path[:0] = [str(ROOT / "tools"), str(ROOT / "bindings" / "python")]

import masked
import plain
from circuit import Circuit, circuit_of, lines_of
from mixing import mixed, whole
from outcomes import Refusal, Trouble
from sharings import Mixed, Sharings

EXAMPLES = ROOT / "examples"
VERDICTS = dict(line.split("\t") for line in (EXAMPLES / "expected.txt").read_text().splitlines())
ACCEPTED = [name for name, verdict in VERDICTS.items() if verdict.startswith("accepted")]
# The only other accepted example that is not made of whole sharings: it has a REG of share 0 alone.
LONE_REGISTER = "case-c-last-stage.hex"
PRESENT = "C 5 6 B 9 0 A D 3 E F 8 4 7 1 2"
RANDOM = 3000
# What the random circuits have to meet: each way in which a run of a kind, or a row, is no sharing.
WAYS = ([f"{kind}: {way}" for kind in ("CON", "XOR", "NOT", "REG") for way in ("label", "last", "kind")]
        + ["CON: stage", "XOR: word 1", "XOR: word 2", "NOT: word 1", "REG: word 1"]
        + ["row a of AND", "row b of AND", "the row of REF", "the row of OUT", "yes"])


def run(name: str) -> tuple[int, str, str]:
    done = subprocess.run(["./show", "plain", f"examples/{name}"], capture_output=True, text=True, cwd=ROOT, timeout=60)
    return done.returncode, done.stdout, done.stderr


def table_of(circuit: Circuit) -> list[int]:
    return [word for words in circuit.frames for word in words]


def proved(table: list[int]) -> tuple[int, int, int]:
    """The rule, frame and word of the proved call; all 0 for a yes."""
    try:
        masked.check_sharings(table)
        return 0, 0, 0
    except masked.Refused as refused:
        return int(refused.rule), refused.frame, refused.word


def way(found: Mixed) -> str:
    """In which way a run or a row is no sharing, from the sentence that tells it."""
    row = re.match(r"(row a|row b|the row) of this (\w+) is no sharing", str(found))
    if row:
        return f"{row[1]} of {row[2]}"
    kind, misfit = re.match(r"this line has to begin a run of \d (\w+)s with labels 0 to \d, but (.*)", str(found)).groups()
    ways = {"label": "has label", "stage": "stands at stage", "last": " last", "kind": r"line \d+ is an? "}
    named = re.match(r"word (\d) of line", misfit)
    return f"{kind}: word {named[1]}" if named else f"{kind}: " + next(name for name, text in ways.items() if re.search(text, misfit))


def aes(byte: int) -> int:
    """AES's S-box: the inverse in its field, then the affine map."""
    inverse = next((other for other in range(256) if times(byte, other) == 1), 0)
    result = 0x63
    for turn in range(5):
        result ^= (inverse << turn | inverse >> (8 - turn)) & 0xFF
    return result


def times(first: int, second: int) -> int:
    product = 0
    for bit in range(8):
        product ^= first << bit if second >> bit & 1 else 0
    for bit in range(14, 7, -1):
        product ^= 0x11B << (bit - 8) if product >> bit & 1 else 0
    return product


class Examples(unittest.TestCase):
    def test_answers(self) -> None:
        """Each accepted example gets the proved call's answer; the mixed ones the spot that the README tells."""
        readme = (EXAMPLES / "README.md").read_text()
        for name in ACCEPTED:
            rule, frame, word = proved(masked.read_text((EXAMPLES / name).read_bytes()))
            status, listing, said = run(name)
            with self.subTest(name):
                if rule:
                    spot = f"refused {rule} frame {frame} word {word}"
                    self.assertEqual((1, "", f"show: examples/{name}: no: {spot}"), (status, listing, said.splitlines()[0]))
                else:
                    self.assertEqual((0, "yes:", ""), (status, listing[:4], said))
                if name.startswith("mixed"):
                    self.assertIn(f"| {name} | `{VERDICTS[name]}` | `refused 26 frame {frame} word 0` |", readme)
                self.assertEqual(name.startswith("mixed-26-") or name == LONE_REGISTER, rule == 26)

    def test_sboxes(self) -> None:
        for d in range(2, 9):
            self.assertEqual(PRESENT, run(f"present-d{d}.hex")[1].splitlines()[-1])
        for d in (2, 3):
            rows = run(f"aes-d{d}.hex")[1].splitlines()
            self.assertEqual([f"{aes(byte):02X}" for byte in range(256)], " ".join(rows[-16:]).split())
            at = rows.index("secrets   OUT sums") + 1
            self.assertEqual([f"{byte:08b}  {aes(byte):08b}" for byte in range(256)], rows[at:at + 256])


class RandomCircuits(unittest.TestCase):
    def test_answers_and_sums(self) -> None:
        """The tool finds what the proved call finds; where that is a yes, the added shares are the plain bits."""
        met: Counter[str] = Counter()
        for seed in range(RANDOM):
            draw = random.Random(seed)
            circuit = whole(draw) if seed % 4 == 0 else mixed(draw)
            rule, frame, word = proved(table_of(circuit))
            with self.subTest(seed):
                try:
                    sharings = Sharings(circuit)
                    self.assertEqual(0, rule)
                    met["yes"] += 1
                    self.held_to_sums(draw, circuit, sharings)
                except Mixed as found:
                    self.assertEqual((26, found.frame, 0), (rule, frame, word))
                    self.assertNotEqual(0, seed % 4)
                    met[way(found)] += 1
        self.assertEqual([], [name for name in WAYS if not met[name]])
        self.assertEqual(set(WAYS), set(met))

    def held_to_sums(self, draw: random.Random, circuit: Circuit, sharings: Sharings) -> None:
        """One drawn list of shares and tape: each sharing's values add up to its plain bit."""
        shares = [draw.getrandbits(1) for _ in range(circuit.d * circuit.inputs)]
        tape = [draw.getrandbits(1) for _ in range(circuit.randoms)]
        values = bytearray(masked.MOST_WIRES)
        masked.evaluate(table_of(circuit), shares, tape, values)
        number = 0
        for at in range(0, len(shares), circuit.d):
            number = 2 * number + sum(shares[at:at + circuit.d]) % 2
        bits = plain.bits_of(circuit.d, sharings)
        for sharing, column in zip(sharings.found, bits):
            self.assertEqual(column >> number & 1, sum(values[wire] for wire in sharing.wires) % 2)


class Disagreement(unittest.TestCase):
    """Nothing is shown where the tool and the proved calls disagree."""

    def shown(self, name: str, outs: bool = True) -> list[str]:
        """What is shown of an example, or of its lines without the OUTs."""
        lines = (EXAMPLES / name).read_bytes().splitlines(keepends=True)
        text = b"".join(line for line in lines if outs or not line.startswith(b"0008"))
        return plain.shown(name, circuit_of(lines_of(text)), masked.read_text(text), lines_of(text))

    def test_another_answer(self) -> None:
        self.assertEqual("yes:", self.shown("whole-d3.hex")[0][:4])
        with self.assertRaises(Refusal):
            self.shown("mixed-26-lone-negation.hex")
        for answer in (masked.Refused(26, 3, 0), masked.Refused(26, 2, 1), masked.Refused(22, 2, 0), None):
            with mock.patch.object(masked, "check_sharings", side_effect=answer):
                with self.assertRaisesRegex(Trouble, "internal error"):
                    self.shown("mixed-26-lone-negation.hex")
        with mock.patch.object(masked, "check_sharings", side_effect=masked.Refused(26, 3, 0)):
            with self.assertRaisesRegex(Trouble, "the proved call answers refused 26 frame 3 word 0, this tool finds yes"):
                self.shown("whole-d3.hex")

    def test_another_sum(self) -> None:
        self.assertEqual("there is no OUT, so no truth table", self.shown("whole-d3.hex", outs=False)[-1])
        with mock.patch.object(plain, "bits_of", side_effect=lambda d, sharings: [0] * len(sharings.found)):
            for outs in (True, False):
                with self.assertRaisesRegex(Trouble, "internal error.* under set 0 sharing 2 adds up to another bit"):
                    self.shown("whole-d3.hex", outs)


if __name__ == "__main__":
    unittest.main()
