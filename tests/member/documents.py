"""Holds the documents to the tools: the rules of docs/FORMAT.md, include/masked.h and masked.py to those that are explained,
masked.py's constants to the header's, and FORMAT's kinds and numbers of wires to those that are counted. Exit status: 0 where all
agree."""
from __future__ import annotations

import re
import sys
from pathlib import Path

ROOT = Path(__file__).resolve().parents[2]
sys.path[:0] = [str(ROOT / "tools"), str(ROOT / "bindings" / "python")]

import masked
from circuit import AND, KINDS, REF, frame_wires, pairs
from explain import MEANINGS

FORMAT = (ROOT / "docs" / "FORMAT.md").read_text()
HEADER = " ".join((ROOT / "include" / "masked.h").read_text().split())
CONSTANTS = ("MOST_WORDS", "MOST_WIRES", "NOTES_WORDS", "TEXT_BYTES", "COUNTS_NUMBERS", "INNER", "REGISTERED")


def differences() -> list[str]:
    found = []
    rows = {int(number): meaning for number, meaning in re.findall(r"^\| (\d+) \| ([^|]+) \| [^|]+ \|$", FORMAT, re.MULTILINE)}
    if rows != MEANINGS:
        found.append("FORMAT's rules are not those explained")
    enum = {int(number): (name, meaning.strip())
            for name, number, meaning in re.findall(r"MASKED_(\w+) = (\d+),? /\* (.*?) \*/", HEADER)}
    rules = {number: enum.get(number, ("", ""))[1] for number in MEANINGS}
    if rules != MEANINGS:
        found.append(f"the header's rules are not those explained: {[n for n in MEANINGS if rules[n] != MEANINGS[n]]}")
    if {rule.value: rule.name for rule in masked.Rule} != {number: enum[number][0] for number in MEANINGS if number in enum}:
        found.append("masked.py's rules are not the header's")
    constants = {name: int(value, 0) for name, value in re.findall(r"MASKED_(\w+) = (\w+),? /\*", HEADER)}
    others = [name for name in CONSTANTS if getattr(masked, name) != constants.get(name)]
    if others:
        found.append(f"masked.py's constants are not the header's: {others}")
    kinds = re.findall(r"^\| (\d{4}) \| (\w+) \|", FORMAT, re.MULTILINE)
    if kinds != [(f"{number:04X}", name) for number, name in enumerate(KINDS)]:
        found.append(f"FORMAT's kinds are {kinds}")
    counts = [(d, frame_wires(AND, d), frame_wires(AND, d) - d, frame_wires(REF, d), frame_wires(REF, d) - d, pairs(d))
              for d in range(2, 9)]
    told = re.findall(r"^\| (\d) \| (\d+) \| n\+(\d+) \| (\d+) \| n\+(\d+) \| (\d+) \|$", FORMAT, re.MULTILINE)
    if [tuple(map(int, row)) for row in told] != counts:
        found.append("FORMAT's numbers of wires are not those counted")
    drawn = re.findall(r"^((?:[0-9A-F]{4} )+) {3,}\S.*$", FORMAT, re.MULTILINE)
    if "\n".join(line.strip() for line in drawn) + "\n" != (ROOT / "examples" / "product-of-three.hex").read_text():
        found.append("FORMAT's circuit is not examples/product-of-three.hex")
    return found


def main() -> int:
    found = differences()
    for difference in found:
        print(f"FAILED documents: {difference}")
    print(f"documents: {7 - len(found)} passed, {len(found)} failed")
    return 1 if found else 0


if __name__ == "__main__":
    sys.exit(main())
