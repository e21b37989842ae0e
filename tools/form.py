"""Rule 20: why a line is not of the line's form.

A line is words of four digits 0-9A-F with one space between, and a line feed behind the last. The cause is that of the first
word, from the left, that is none; columns count bytes from 1, as an editor does.
"""
from __future__ import annotations

import re

from circuit import JUDGED_BYTES, KINDS, frame_words

WORD = re.compile(rb"[0-9A-F]{4}")
START = re.compile(rb"[0-9A-F]{0,4}")
BYTE_ORDER_MARKS = (b"\xef\xbb\xbf", b"\xff\xfe", b"\xfe\xff")


def fault(line: bytes, first: bool, d: int, cut: bool) -> tuple[str, dict[str, int | str]]:
    """A sentence with places for its facts, and the facts. `cut`: the text goes on behind the bytes that are judged."""
    ended = line.endswith(b"\n")
    inside = line[:-1] if ended else line
    if ended and not inside:
        return "the line is empty", {"cause": "empty line"}
    if first and inside.startswith(BYTE_ORDER_MARKS):
        return "the text begins with a byte order mark; save it without one", {"cause": "byte order mark"}
    tokens = inside.split(b" ")
    for place, token in enumerate(tokens):
        if cut and not ended and place == len(tokens) - 1 and START.fullmatch(token):
            return "the line goes on past byte {most:,}, and no more is judged", {"cause": "cut", "most": JUDGED_BYTES}
        if not WORD.fullmatch(token):
            column = sum(len(before) + 1 for before in tokens[:place]) + 1
            behind = place > 0 and place == words_wanted(tokens[0], first, d)
            return token_fault(token, column, behind, place == 0, not any(tokens[place:]))
    return "there is no line feed behind the last word", {"cause": "no line feed"}


def words_wanted(kind: bytes, first: bool, d: int) -> int | None:
    """The words that a line of this kind has; None where it has none."""
    number = int(kind, 16)
    if first:
        return 2
    return frame_words(number, d) if 0 < number < len(KINDS) else None


def token_fault(token: bytes, column: int, behind: bool, leads: bool, only_spaces: bool) -> tuple[str, dict[str, int | str]]:
    """Why a token is no word. `behind`: all words stand before it; `leads`: it is the first; `only_spaces`: so is the rest."""
    if not token:
        if leads and only_spaces:
            return "the line has spaces alone", {"cause": "spaces alone"}
        if leads:
            return "a space stands in front of the first word", {"cause": "space in front"}
        if only_spaces:
            return "a space stands behind the last word, in column {column}", {"cause": "space behind", "column": column - 1}
        return "two spaces stand together, from column {column} on", {"cause": "two spaces", "column": column - 1}
    for byte, name in ((b"\t", "tab"), (b"\r", "carriage return")):
        if byte in token:
            return "a " + name + " stands in column {column}" + HINTS[name], {"cause": name, "column": column + token.index(byte)}
    if behind:
        return "something stands behind the words, from column {column} on", {"cause": "behind the words", "column": column}
    if re.fullmatch(rb"[0-9A-Fa-f]+", token):
        if len(token) != 4:
            return "the word in column {column} has {digits:digit}, four are wanted", {
                "cause": "digits", "column": column, "digits": len(token)}
        at = re.search(rb"[a-f]", token).start()
        return "a lower-case letter stands in column {column}; digits are 0-9 and A-F", {
            "cause": "lower case", "column": column + at}
    at = re.search(rb"[^0-9A-Fa-f]", token).start()
    return "the byte {byte:02X}" + shown(token[at]) + " in column {column} is no digit 0-9A-F", {
        "cause": "no digit", "column": column + at, "byte": token[at]}


HINTS = {"tab": "; one space stands between words", "carriage return": "; lines end with a line feed alone"}


def shown(byte: int) -> str:
    """The character of a printable byte, in brackets; braces are doubled, as it goes into a sentence with places."""
    return f" ({chr(byte)})".replace("{", "{{").replace("}", "}}") if 32 < byte < 127 else ""
