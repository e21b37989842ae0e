"""A table as a member's tool writes it, 16-bit words in a file, and why the proved call refused it. `show text` uses it.

The rule and the spot are the proved call's. What stands there is told as of a text's lines, one for each frame.
"""
from __future__ import annotations

import explain
from circuit import HEAD, KINDS, MOST_WORDS, frame_words
from explain import Finding

MOST_BYTES = 2 * MOST_WORDS
# What is read of a file: a table, and a word more, by which rule 1 is told.
READ_BYTES = MOST_BYTES + 2
# The other order of a word's bytes, and how to ask for it.
OTHER = {"little": ("big", "with"), "big": ("little", "without")}


def words_of(data: bytes, order: str) -> list[int]:
    """The words of an even number of bytes; `order` is that of a word's bytes, little or big."""
    return [int.from_bytes(data[at:at + 2], order) for at in range(0, len(data), 2)]


def frames_of(table: list[int], last: int) -> list[list[int]]:
    """The frames up to the one refused, which ends where its kind says so, else with the table."""
    frames = [table[:2]] if table else []
    at = 2
    while at < len(table) and len(frames) <= last:
        kind = table[at]
        length = frame_words(kind, table[1]) if HEAD < kind < len(KINDS) else len(table)
        frames.append(table[at:at + length])
        at += length
    return frames


def line_of(words: list[int]) -> bytes:
    return (" ".join(f"{word:04X}" for word in words) + "\n").encode("ascii")


def finding(table: list[int], rule: int, frame: int, word: int) -> Finding:
    """What was found and wanted where a table broke a rule: 1, 3 to 14, or 22."""
    frames = frames_of(table, frame)
    if rule == 1:
        return Finding("the file has more than {most:,} bytes, two for each word", {"most": MOST_BYTES})
    if rule == 3 and table in ([], [HEAD]):
        return Finding("the table has {found:word}, HEAD has 2", {"found": len(table)})
    if rule == 6:
        return explain.words_of_kind(frames[frame], table[1], "the table ends behind {found}")
    return explain.finding(b"".join(map(line_of, frames)), rule, frame, word)


def low_byte_fits(rule: int, facts: dict[str, int | str]) -> bool:
    """Whether a number of shares, a label or a value is over a byte, and its low byte alone would do."""
    if rule == 4:
        return facts["found"] > 0xFF and 2 <= facts["found"] & 0xFF <= 8
    return facts.get("cause") in ("label", "value") and facts["found"] > 0xFF and facts["found"] & 0xFF <= facts["most"]


def hint(data: bytes, order: str, rule: int, facts: dict[str, int | str]) -> list[str]:
    """What may have gone wrong in the tool, as a row; none where nothing known shows."""
    other, given = OTHER[order]
    first = words_of(data[:4], other)
    if data[:5] == b"0000 ":
        return ["  hint: the file looks like a text already; ./judge judges it"]
    if len(data) % 2:
        return []
    if len(first) == 2 and first[0] == HEAD and 2 <= first[1] <= 8:
        return [f"  hint: with the bytes of each word in the other order it begins {first[0]:04X} {first[1]:04X}: "
                f"try it {given} --big-endian"]
    if low_byte_fits(rule, facts):
        return [f"  hint: the low byte alone, {facts['found'] & 0xFF:02X}, would do: is the high byte an alignment byte, "
                "of a struct that was written whole?"]
    return []


def odd(data: bytes, order: str) -> str:
    """Why an odd number of bytes is no table."""
    here = "is 1 byte" if len(data) == 1 else f"are {len(data):,} bytes"
    said = f"a table is 16-bit words, two bytes each, and here {here}, an odd number"
    return "\n".join([said] + hint(data, order, 0, {}))


def explanation(data: bytes, order: str, rule: int, frame: int, word: int) -> str:
    """The lines that explain a table's refusal."""
    table = words_of(data, order)
    found = finding(table, rule, frame, word)
    rows = explain.told(rule, word, found)
    frames = frames_of(table, frame)
    if rule != 1 and frame < len(frames):
        before, line = sum(map(len, frames[:frame])), explain.shown(line_of(frames[frame]))
        rows.append(f"  frame {frame} (line {frame + 1} as text), from word {before} of the table: {line}")
    return "\n".join(rows + hint(data, order, rule, found.facts))
