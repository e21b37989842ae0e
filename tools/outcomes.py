"""How a command of `show` ends where it does not show all that was asked."""
from __future__ import annotations

from explain import MEANINGS, Finding


class Trouble(Exception):
    """Something that keeps the command from being done."""


class Refusal(Exception):
    """A rule that the circuit or the inputs broke, or a file that is no table, in plain words."""


def refusal(rule: int, found: Finding) -> Refusal:
    return Refusal(f"refused {int(rule)}: {MEANINGS[rule]}\n  here: {found}")
