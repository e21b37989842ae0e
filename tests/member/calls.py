"""Tries bindings/python/masked.py by itself, and null with length 0 through ctypes. Exit status: 0 where all passed."""
from __future__ import annotations

import ctypes
import random
import subprocess
import sys
import unittest
from array import array
from pathlib import Path

ROOT = Path(__file__).resolve().parents[2]
sys.path.insert(0, str(ROOT / "bindings" / "python"))

import masked

TEXT = (ROOT / "examples" / "circuit-a.hex").read_bytes()
TABLE = masked.read_text(TEXT)
REGISTERS = (5, 6, 8, 9, 11, 13, 15, 17, 19, 21, 23, 26, 27)
A1 = [1, 0, 1, 1, 1, 1, 1, 1, 1, 1, 0, 0, 0, 0, 0, 0, 0, 0, 1, 1, 0, 0, 0, 0, 1, 1, 1, 1]


def words(count: int) -> array:
    return masked.words([0xA5A5] * count)


def numbers(count: int) -> array:
    return array("I", [0xA5A5A5A5] * count)


class Functions(unittest.TestCase):
    def refused(self, rule: int, frame: int, word: int, function, *arguments, **named) -> None:
        with self.assertRaises(masked.Refused) as caught:
            function(*arguments, **named)
        self.assertEqual((rule, frame, word), (caught.exception.rule, caught.exception.frame, caught.exception.word))

    def test_check(self) -> None:
        notes = words(masked.NOTES_WORDS)
        self.assertEqual((28, 1, 3), masked.check(TABLE, notes))
        self.assertEqual((1, 2, False), masked.place(notes, 25))
        self.assertEqual((1, 3, True), masked.place(notes, 27))
        self.assertIsNone(masked.place(notes, 23))
        self.assertEqual(0xA5A5, notes[56])
        self.refused(2, 0, 0, masked.check, TABLE, words(16383))
        self.refused(8, 6, 1, masked.check, list(TABLE[:-2]) + [28, 27])
        self.refused(22, 6, 1, masked.check, list(TABLE[:-2]) + [24, 25])
        self.refused(1, 0, 0, masked.check, [0] * 8193)

    def test_check_sharings(self) -> None:
        """Yes is the check's answer; no is 26, behind all of the check's refusals; the notes are the check's."""
        whole, mixed = (masked.read_text((ROOT / "examples" / name).read_bytes())
                        for name in ("whole-d3.hex", "mixed-26-row-of-two-sharings.hex"))
        for table, answer in ((TABLE, (28, 1, 3)), (whole, (84, 6, 3)), ([0, 2], (0, 0, 0))):
            notes, checked = words(masked.NOTES_WORDS), words(masked.NOTES_WORDS)
            self.assertEqual(answer, masked.check(table, checked))
            self.assertEqual(answer, masked.check_sharings(table, notes))
            self.assertEqual(checked, notes)
        notes, checked = words(masked.NOTES_WORDS), words(masked.NOTES_WORDS)
        masked.check(mixed, checked)
        self.refused(masked.Rule.NOT_A_SHARING, 4, 0, masked.check_sharings, mixed, notes)
        self.assertEqual(checked, notes)
        self.refused(26, 4, 0, masked.check_sharings, list(mixed))
        self.refused(8, 7, 2, masked.check_sharings, list(mixed[:-1]) + [30])
        self.refused(22, 7, 1, masked.check_sharings, list(mixed[:-2]) + [26, 27])
        self.refused(2, 0, 0, masked.check_sharings, mixed, words(16383))
        self.refused(1, 0, 0, masked.check_sharings, [0] * 8193)

    def test_evaluate(self) -> None:
        values = bytearray(b"\xa5" * masked.MOST_WIRES)
        self.assertEqual((28, 1, 3), masked.evaluate(TABLE, [1, 0, 1, 1], [1], values))
        self.assertEqual(A1, list(values[:28]))
        self.assertEqual(0xA5, values[28])
        self.refused(15, 0, 0, masked.evaluate, TABLE, [1, 0, 1], [1])
        self.refused(18, 0, 4, masked.evaluate, TABLE, [1, 0, 1, 1], [2])
        self.refused(17, 0, 0, masked.evaluate, TABLE, [1, 0, 1, 1], [1], bytearray(8191))

    def test_clock(self) -> None:
        """Case A1 on every clock: wires of stage t have its values from clock t on, and the bank those of registers alone."""
        values, notes, bank = bytearray(b"\xa5" * masked.MOST_WIRES), words(masked.NOTES_WORDS), masked.new_bank()
        self.assertEqual(bytearray(8192), bank)
        bank[0] = bank[24] = bank[28] = 0xA5
        for clock in range(4):
            self.assertEqual((28, 1, 3), masked.clock(TABLE, [1, 0, 1, 1], [1], bank, values, notes))
            self.assertEqual([int(clock >= 2)] * 2 + [int(clock >= 3)] * 2, list(values[24:28]))
        self.assertEqual(A1, list(values[:28]))
        self.assertEqual((0xA5, (1, 3, True)), (values[28], masked.place(notes, 27)))
        self.assertEqual([A1[wire] if wire in REGISTERS else 0xA5 * (wire in (0, 24)) for wire in range(28)], list(bank[:28]))
        before = bytes(bank)
        self.refused(15, 0, 0, masked.clock, TABLE, [1, 0, 1], [2], bank)
        self.refused(16, 0, 0, masked.clock, TABLE, [1, 0, 1, 2], [], bank, values)
        self.refused(17, 0, 0, masked.clock, TABLE, [1, 0, 1, 2], [2], bank, bytearray(8191))
        self.refused(18, 0, 4, masked.clock, TABLE, [1, 0, 1, 1], [2], bank, values)
        self.refused(22, 6, 1, masked.clock, list(TABLE[:-2]) + [24, 25], [], [], bank, values)
        self.assertEqual((before, A1), (bytes(bank), list(values[:28])))
        self.refused(17, 0, 0, masked.clock, TABLE, [1, 0, 1, 2], [2], bytearray(8191))
        bank[5] = 2
        self.refused(18, 0, 4 + 1 + 5, masked.clock, TABLE, [1, 0, 1, 1], [1], bank, values)

    def test_clock_after_clock(self) -> None:
        """The OUT shows set j on clock j+3, from any bank; a refused call is no clock."""
        draw, values = random.Random(1), bytearray(masked.MOST_WIRES)
        for bank in (masked.new_bank(), bytearray(draw.getrandbits(1) for _ in range(8192))):
            feed = [([draw.getrandbits(1) for _ in range(4)], [draw.getrandbits(1)]) for _ in range(20)]
            shown = []
            for shares, tape in feed:
                masked.clock(TABLE, shares, tape, bank, values)
                shown.append(values[26:28])
                self.refused(15, 0, 0, masked.clock, TABLE, [], tape, bank, values)
            for number in range(17):
                masked.evaluate(TABLE, feed[number + 1][0][:2] + feed[number][0][2:], feed[number][1], values)
                self.assertEqual(values[26:28], shown[number + 3])

    def test_read_probes(self) -> None:
        reading = bytearray(masked.MOST_WIRES)
        for probe, read in ((24, {8: 1, 13: 0, 17: 0}), (14, {3: 1, 4: 1}), (16, {0: 1, 15: 0})):
            masked.read_probes(TABLE, [1, 0, 1, 1], [1], [probe], reading)
            self.assertEqual(read, {wire: value for wire, value in enumerate(reading) if value != 2})
        self.refused(19, 0, 1, masked.read_probes, TABLE, [1, 0, 1, 1], [1], [0, 28], reading)

    def test_read_text(self) -> None:
        table = words(20)
        self.assertEqual(19, len(masked.read_text(TEXT, table)))
        self.assertEqual((2, 0xA5A5), (table[1], table[19]))
        self.refused(21, 3, 0, masked.read_text, TEXT, words(10))
        self.refused(20, 1, 0, masked.read_text, b"0000 0002\n0001 00f0\n")

    def test_write_text(self) -> None:
        self.assertEqual(TEXT, masked.write_text(TABLE))
        text, notes = bytearray(b"\xa5" * (len(TEXT) + 1)), words(masked.NOTES_WORDS)
        self.assertEqual(TEXT, masked.write_text(list(TABLE), text, notes))
        self.assertEqual(TEXT + b"\xa5", text)
        self.assertEqual((1, 3, True), masked.place(notes, 27))
        self.assertEqual(TEXT, masked.write_text(TABLE, bytearray(len(TEXT))))
        short = bytearray(b"\xa5" * (len(TEXT) - 1))
        self.refused(masked.Rule.TEXT_TOO_SHORT, 0, 0, masked.write_text, TABLE, short)
        self.refused(22, 6, 1, masked.write_text, list(TABLE[:-2]) + [24, 25], short)
        self.assertEqual({0xA5}, set(short))
        self.refused(1, 0, 0, masked.write_text, [0] * 8193)
        self.refused(2, 0, 0, masked.write_text, TABLE, None, words(16383))

    def test_count(self) -> None:
        rows = [(4, 0, 500, 0), (0, 4, 0, 500), (0, 4, 0, 500), (4, 0, 500, 0)]
        self.assertEqual((2, 4, 8, rows), masked.count(TABLE, [0, 0, 1, 1], [26, 27]))
        counts, notes = numbers(masked.COUNTS_NUMBERS + 1), words(masked.NOTES_WORDS)
        self.assertEqual((2, 4, 8, rows), masked.count(TABLE, bytes([0, 0, 1, 1]), [27, 26, 27], counts, notes))
        self.assertEqual([number for row in rows for number in row] + [0xA5A5A5A5], list(counts[:17]))
        self.assertEqual((1, 3, True), masked.place(notes, 27))
        one = masked.count(TABLE, [0, 1, 1, 1], [24])
        self.assertEqual([3, 1, 2, 0, 1, 1, 0, 0], [first for first, *_ in one.rows])
        self.assertTrue(all(row[0] == row[1] and row[2] == row[3] for row in one.rows))
        self.assertEqual((0, 1, 8, [(8, 8, 1000, 1000)]), masked.count(TABLE, [0, 0, 1, 1], []))
        counts = numbers(masked.COUNTS_NUMBERS)
        self.refused(15, 0, 0, masked.count, TABLE, [0, 0, 1], [28], counts)
        self.refused(17, 0, 0, masked.count, TABLE, [0, 0, 1, 2], [28], counts[1:])
        self.refused(18, 0, 3, masked.count, TABLE, [0, 0, 1, 2], [28], counts)
        self.refused(19, 0, 1, masked.count, TABLE, [0, 0, 1, 1], [0, 28], counts)
        self.refused(masked.Rule.TOO_MANY_PAIRS, 0, 0, masked.count, [0, 2] + [1, 0] * 17, [0] * 34, range(9), counts)
        self.refused(masked.Rule.TOO_MANY_WIRES_READ, 0, 0, masked.count, [0, 2] + [1, 0] * 16, [0] * 32, range(9), counts)
        self.refused(22, 6, 1, masked.count, list(TABLE[:-2]) + [24, 25], [], [], counts)
        self.assertEqual({0xA5A5A5A5}, set(counts))
        self.assertEqual((8, 256, 65536), masked.count([0, 2] + [1, 0] * 16, [0] * 32, range(8))[:3])

    def test_buffers_of_another_kind(self) -> None:
        for wrong in (bytearray(16384), bytes(32768), array("I", bytes(65536))):
            for function in (masked.check, masked.check_sharings):
                with self.assertRaises(TypeError):
                    function(TABLE, wrong)
        with self.assertRaises(TypeError):
            masked.evaluate(TABLE, [1, 0, 1, 1], [1], bytes(8192))
        for wrong in (bytes(8192), words(4096), None):
            with self.assertRaises(TypeError):
                masked.clock(TABLE, [1, 0, 1, 1], [1], wrong)
        with self.assertRaises(TypeError):
            masked.write_text(TABLE, words(100))
        for wrong in (bytearray(1024), words(2048), array("Q", bytes(8192))):
            with self.assertRaises(TypeError):
                masked.count(TABLE, [0, 0, 1, 1], [24], wrong)

    def test_its_own_example(self) -> None:
        """The example of the module's first lines runs."""
        example = "".join(line[4:] + "\n" for line in masked.__doc__.splitlines() if line.startswith("    "))
        script = f"import sys; sys.path.insert(0, 'bindings/python')\n{example}print(values[24], [reading[w] for w in (8, 13, 17)], list(values[26:28]), len(text), counted.rows[0])"
        done = subprocess.run([sys.executable, "-c", script], cwd=ROOT, capture_output=True, text=True, check=True)
        self.assertEqual("1 [1, 0, 0] [1, 1] 95 (4, 0, 500, 0)\n", done.stdout)


class Null(unittest.TestCase):
    """An empty slice may be null."""

    def call(self, name: str, *buffers, numbers: int = 3) -> list[int]:
        function = getattr(masked.library(), name)
        function.restype = ctypes.c_uint64
        written = [ctypes.c_uint64(99) for _ in range(numbers)]
        arguments = []
        for buffer in buffers:
            pointer = None if buffer is None else (ctypes.c_char * memoryview(buffer).nbytes).from_buffer(buffer)
            arguments += [ctypes.c_void_p(None) if pointer is None else ctypes.byref(pointer), ctypes.c_size_t(len(buffer or ()))]
        result = function(*arguments, *map(ctypes.byref, written))
        return [result] + [number.value for number in written]

    def test_null(self) -> None:
        head, notes, values = masked.words([0, 2]), words(masked.NOTES_WORDS), bytearray(masked.MOST_WIRES)
        reading, table = bytearray(masked.MOST_WIRES), words(masked.MOST_WORDS)
        self.assertEqual([2, 0, 0, 0], self.call("masked_check", None, None))
        self.assertEqual([3, 0, 0, 0], self.call("masked_check", None, notes))
        self.assertEqual([2, 0, 0, 0], self.call("masked_check_sharings", None, None))
        self.assertEqual([3, 0, 0, 0], self.call("masked_check_sharings", None, notes))
        self.assertEqual([0, 0, 0, 0], self.call("masked_check_sharings", head, notes))
        self.assertEqual([0, 0, 0, 0], self.call("masked_evaluate", head, notes, None, None, values))
        self.assertEqual([17, 0, 0, 0], self.call("masked_evaluate", head, notes, None, None, None))
        self.assertEqual([0, 0, 0, 0], self.call("masked_read_probes", head, notes, None, None, values, None, reading))
        self.assertEqual({2}, set(reading))
        self.assertEqual([0, 0, 0, 0], self.call("masked_clock", head, notes, None, None, values, bytearray(8192)))
        self.assertEqual([17, 0, 0, 0], self.call("masked_clock", head, notes, None, None, values, None))
        self.assertEqual([17, 0, 0, 0], self.call("masked_clock", head, notes, None, None, None, bytearray(8192)))
        self.assertEqual([3, 0, 0], self.call("masked_read_text", None, table, numbers=2))
        self.assertEqual([21, 0, 0], self.call("masked_read_text", bytearray(b"0000 0002\n"), None, numbers=2))
        self.assertEqual([3, 0, 0, 0], self.call("masked_write_text", None, notes, None))
        self.assertEqual([23, 0, 0, 0], self.call("masked_write_text", head, notes, None))
        self.assertEqual([17, 0, 0, 0], self.call("masked_count", head, notes, None, None, None))
        counts = numbers(masked.COUNTS_NUMBERS)
        self.assertEqual([0, 0, 1, 1], self.call("masked_count", head, notes, None, None, counts))
        self.assertEqual([1, 1, 1000, 1000, 0xA5A5A5A5], list(counts[:5]))


if __name__ == "__main__":
    unittest.main()
