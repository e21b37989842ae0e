"""Tries `show text` on tables as tools write them: every example as words, in both orders of bytes, and the files of words that
examples/ has. Exit status: 0 where all passed."""
from __future__ import annotations

import ctypes
import subprocess
import sys
import unittest
from pathlib import Path

ROOT = Path(__file__).resolve().parents[2]
EXAMPLES = ROOT / "examples"
EXPECTED = dict(line.split("\t") for line in (EXAMPLES / "expected.txt").read_text().splitlines())
# The rules that a table breaks where its text does; the others are about lines, which a table has not.
OF_THE_CHECK = [*range(7, 15), 22]


class Con(ctypes.LittleEndianStructure):
    """What a converter keeps for a CON. An alignment byte stands behind the label."""

    _fields_ = [("kind", ctypes.c_uint16), ("label", ctypes.c_uint8), ("value", ctypes.c_uint16), ("stage", ctypes.c_uint16)]


def words_of(name: str, order: str) -> bytes:
    """An example's words as a tool would write them."""
    return b"".join(int(word, 16).to_bytes(2, order) for word in (EXAMPLES / name).read_text().split())


def run(*words: str, given: bytes = b"") -> tuple[int, bytes, bytes]:
    done = subprocess.run(words, input=given, capture_output=True, cwd=ROOT, timeout=60)
    return done.returncode, done.stdout, done.stderr


class Tables(unittest.TestCase):
    def test_accepted_examples(self) -> None:
        """The text is the example's own, and judge gives it the example's line."""
        shares = set()
        for name, line in EXPECTED.items():
            if not line.startswith("accepted"):
                continue
            text = (EXAMPLES / name).read_bytes()
            shares.add(int(text[5:9], 16))
            with self.subTest(name):
                status, shown, said = run("./show", "text", "-", given=words_of(name, "little"))
                self.assertEqual((0, text, b""), (status, shown, said))
                self.assertEqual((0, f"{line}\n".encode(), b""), run("./judge", given=shown))
                self.assertEqual((0, text, b""), run("./show", "text", "--big-endian", "-", given=words_of(name, "big")))
        self.assertEqual(set(range(2, 9)), shares)

    def test_refused_examples(self) -> None:
        """The refusal is the text's, and so is what was found."""
        tried = set()
        for name, line in EXPECTED.items():
            rule = 0 if line.startswith("accepted") else int(line.split()[1])
            if rule not in OF_THE_CHECK:
                continue
            tried.add(rule)
            here = [row for row in run("./judge", "--explain", f"examples/{name}")[2].splitlines() if row.startswith(b"  here")]
            with self.subTest(name):
                status, shown, said = run("./show", "text", "-", given=words_of(name, "little"))
                self.assertEqual((1, b"", f"show: standard input: {line}".encode()), (status, shown, said.splitlines()[0]))
                self.assertEqual(here, said.splitlines()[2:3])
        self.assertEqual(set(OF_THE_CHECK), tried)

    def test_too_many_words(self) -> None:
        data = words_of("refused-21-too-many-words.hex", "little")
        status, _, said = run("./show", "text", "-", given=data)
        self.assertEqual((1, b"show: standard input: refused 1 frame 0 word 0"), (status, said.splitlines()[0]))

    def test_files_of_words(self) -> None:
        self.assertEqual(words_of("circuit-a.hex", "little"), (EXAMPLES / "circuit-a.words").read_bytes())
        con = Con.from_buffer(bytearray(b"\x5a" * ctypes.sizeof(Con)))
        con.kind, con.label, con.value, con.stage = 2, 1, 1, 0
        stored = (EXAMPLES / "refused-07-alignment-bytes.words").read_bytes()
        self.assertEqual(bytes(con), stored[8:16])
        cleared = stored[:11] + b"\0" + stored[12:]
        self.assertEqual((0, b""), run("./show", "text", "-", given=cleared)[::2], "all else of it is right")


if __name__ == "__main__":
    unittest.main()
