"""Rows that `show` prints of a circuit's wires and of the probes on them."""
from __future__ import annotations

from circuit import KINDS, Circuit

PLACE = " wire   hex   line  kind  name   "


def place(number: int, circuit: Circuit) -> str:
    """A wire's number, hexadecimal number, line, kind and name."""
    wire = circuit.wires[number]
    return f"{number:5}  {number:04X}  {wire.frame + 1:5}  {KINDS[wire.kind]:4}  {wire.name:7}"


def probed(probes: list[int], circuit: Circuit) -> list[str]:
    """A row for each probe, in the order given."""
    return [f"probe {probe} ({probe:04X}), {circuit.wires[probe].name} on line {circuit.wires[probe].frame + 1}" for probe in probes]
