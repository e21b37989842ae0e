"""What `show` evaluates on: shares, tape and probes from the command's words, and why a call refused them."""
from __future__ import annotations

import argparse
import random
import secrets
from dataclasses import dataclass

from circuit import Circuit
from explain import Finding


@dataclass
class Inputs:
    """The bits of a call, and a line that tells what was drawn (empty where nothing was)."""

    shares: list[int]
    tape: list[int]
    drawn: str = ""


def digits(text: str) -> list[int]:
    """Bits as a row of digits. Digits past 1 are let through: the call refuses them, with the place."""
    if not (text.isascii() and (text.isdigit() or not text)):
        raise argparse.ArgumentTypeError(f"'{text}' is not a row of digits 0 and 1")
    return [int(digit) for digit in text]


def wire(text: str) -> int:
    """A wire's number, decimal or as 0x.."""
    try:
        number = int(text, 16) if text.lower().startswith("0x") else int(text)
    except ValueError:
        number = -1
    if number < 0:
        raise argparse.ArgumentTypeError(f"'{text}' is not a wire's number")
    return number


def inputs_of(options: argparse.Namespace, circuit: Circuit) -> Inputs:
    """The shares and the tape given, or drawn from the secret bits: each IN's last share completes its bit."""
    if options.secrets is None:
        return Inputs(options.shares or [], options.tape or [])
    seed = secrets.randbits(32) if options.seed is None else options.seed
    generator = random.Random(seed)
    shares = []
    for secret in options.secrets:
        row = [generator.getrandbits(1) for _ in range(circuit.d - 1)]
        shares += row + [(secret + sum(row)) % 2]
    tape = [generator.getrandbits(1) for _ in range(circuit.randoms)]
    return Inputs(shares, tape, f"drawn with seed {seed}: --shares {row_of(shares)} --tape {row_of(tape)}")


def row_of(bits: list[int]) -> str:
    return "".join(map(str, bits)) or "''"


def finding(rule: int, word: int, circuit: Circuit, options: argparse.Namespace, inputs: Inputs) -> Finding:
    """What was found and wanted where an evaluation or a reading broke a rule from 15 to 19."""
    if rule == 15 and options.secrets is not None:
        return Finding("{wanted:secret bit} wanted, one for each IN; {found} given",
                       {"wanted": circuit.inputs, "found": len(options.secrets)})
    return no_such_wire(options.probe[word], circuit) if rule == 19 else of_bits(rule, word, circuit, inputs)


def of_bits(rule: int, word: int, circuit: Circuit, inputs: Inputs) -> Finding:
    """What was found and wanted where shares and tape broke rule 15, 16 or 18."""
    if rule == 15:
        return Finding("{wanted:share} wanted, {d} for each IN; {found} given",
                       {"wanted": circuit.d * circuit.inputs, "d": circuit.d, "found": len(inputs.shares)})
    if rule == 16:
        return Finding("{wanted:random bit} wanted; {found} given", {"wanted": circuit.randoms, "found": len(inputs.tape)})
    shares = len(inputs.shares)
    place = word if word < shares else word - shares
    row = inputs.shares if word < shares else inputs.tape
    return Finding("digit {place} of the " + ("shares" if word < shares else "tape") + " is {found}",
                   {"place": place + 1, "found": row[place]})


def no_such_wire(probe: int, circuit: Circuit) -> Finding:
    return Finding("there is no wire {wire}; the circuit has {wires:wire}, numbered from 0",
                   {"wire": probe, "wires": len(circuit.wires)})
