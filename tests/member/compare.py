"""Holds what a member is told against the second program's `describe`: the rows of `show wires`, and judge's explanations. What
`show text` says of the same circuits as tables is held to what is said of the texts.

    compare.py wires N      N random accepted circuits, every row; their tables are written as the text
    compare.py refusals N   N damaged texts: the proved verdict, and each number and cause of the explanation

Exit status: 0 where all agree and every rule and cause was met.
"""
from __future__ import annotations

import subprocess
import sys
from collections import Counter
from collections.abc import Callable
from pathlib import Path

ROOT = Path(__file__).resolve().parents[2]
sys.path[:0] = [str(ROOT / "tools"), str(ROOT / "bindings" / "python")]

import explain
import masked
import show
import tables
from circuit import circuit_of, lines_of

RULES = [*range(3, 15), *range(20, 23)]
CAUSES = ["empty line", "byte order mark", "no line feed", "spaces alone", "space in front", "space behind", "two spaces", "tab",
          "carriage return", "behind the words", "digits", "lower case", "no digit"]


def described(mode: str, count: int) -> list[list[str]]:
    """The second program's lines, each cut into its parts; the first is the text in hexadecimal."""
    program = ROOT / "tests" / "target" / "release" / "describe"
    lines = subprocess.run([program, f"--{mode}", str(count)], check=True, capture_output=True, text=True).stdout.splitlines()
    assert len(lines) == count, f"describe printed {len(lines)} lines"
    return [line.split("|") for line in lines]


def differing_rows(text: bytes, wanted: list[str]) -> str:
    """The first row of `show wires` that differs, or that the table is written as another text; empty where all agree."""
    notes = masked.words([0] * masked.NOTES_WORDS)
    table = masked.read_text(text)
    answer = masked.check(table, notes)
    if masked.write_text(table) != text:
        return "the table is written as another text"
    lines = lines_of(text)
    rows = show.show_wires(circuit_of(lines), lines, notes, answer)
    got = [" ".join(row.split()) for row in rows[1:-1] if not row.startswith("line ")]
    for row in range(max(len(got), len(wanted))):
        if got[row:row + 1] != wanted[row:row + 1]:
            return f"row {row}: show has {got[row:row + 1]}, the second program {wanted[row:row + 1]}"
    return ""


def verdict(judged: Callable[[], object]) -> tuple[int, int, int]:
    """The refusal of a call of the proved code."""
    try:
        judged()
        return 0, 0, 0
    except masked.Refused as refused:
        return int(refused.rule), refused.frame, refused.word


def differing_table(text: bytes, spot: tuple[int, int, int], found: explain.Finding) -> str:
    """How the words of a text, as a table, are refused or explained otherwise; empty where they are not."""
    table = masked.read_text(text)
    got = verdict(lambda: masked.write_text(table))
    if got != spot:
        return f"the text is refused at {spot}, its table at {got}"
    told = tables.finding(list(table), *got)
    return "" if told == found else f"the text is explained with {found}, its table with {told}"


def differing_facts(text: bytes, spot: str, wanted: list[str]) -> str:
    """How the explanation's facts differ from the second program's; empty where they agree."""
    got = verdict(lambda: masked.check(masked.read_text(text)))
    if got != tuple(map(int, spot.split())):
        return f"the proved code refuses at {got}, the second program at {spot}"
    found = explain.finding(text, *got)
    facts = {name: str(fact) for name, fact in found.facts.items()}
    second = dict(fact.split("=", 1) for fact in wanted if fact)
    if facts != second:
        return f"explained with {facts}, the second program has {second}; {found}"
    return differing_table(text, got, found) if got[0] in explain.OF_THE_CHECK else ""


def main() -> int:
    mode, count = sys.argv[1], int(sys.argv[2])
    met: Counter[str] = Counter()
    failed = 0
    for hexadecimal, *parts in described(mode, count):
        text = bytes.fromhex(hexadecimal)
        if mode == "wires":
            met["rows"] += len(parts)
            difference = differing_rows(text, [row for row in parts if row])
        else:
            met["rule " + parts[0].split()[0]] += 1
            met.update(fact for fact in parts[1:] if fact.startswith("cause="))
            difference = differing_facts(text, parts[0], parts[1:])
        if difference:
            failed += 1
            print(f"member compare: {difference}\n  text {text!r}")
    wanted = [f"rule {rule}" for rule in RULES] + [f"cause={cause}" for cause in CAUSES] if mode == "refusals" else ["rows"]
    missing = [name for name in wanted if not met[name]]
    print(f"member compare: {mode}: " + ", ".join(f"{name} {times}" for name, times in sorted(met.items())))
    if missing:
        print(f"member compare: never met: {', '.join(missing)}")
    print(f"member compare: {mode}: {count - failed} passed, {failed} failed")
    return 1 if failed or missing else 0


if __name__ == "__main__":
    sys.exit(main())
