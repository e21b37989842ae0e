"""The counts that `show counts` prints of two sets of secret bits, and why the proved call refused them."""
from __future__ import annotations

from array import array

import masked
from circuit import Circuit
from explain import Finding, Number
from inputs import no_such_wire, row_of
from rows import PLACE, place, probed

# Parts per thousand that a mark of a bar stands for; a part that is begun has its mark.
MARK = 25


def read_wires(circuit: Circuit, table: array, probes: list[int]) -> list[int]:
    """The wires that the probes read, rising, by the proved call; none where a probe is on no wire."""
    reading = bytearray(masked.MOST_WIRES)
    try:
        masked.read_probes(table, [0] * circuit.d * circuit.inputs, [0] * circuit.randoms, probes, reading)
    except masked.Refused:
        return []
    return [number for number, value in enumerate(reading) if value != 2]


def bar(count: int, pairs: int) -> str:
    return "#" * -(-1000 * count // (MARK * pairs))


def listing(circuit: Circuit, sets: list[list[int]], probes: list[int], read: list[int], counted: masked.Counted) -> list[str]:
    """The probes, the wires they read, and a row for each combination of their values."""
    rows = probed(probes, circuit) + [PLACE + "  digit"]
    rows += [f"{place(number, circuit)}  {at + 1:5}" for at, number in enumerate(read)]
    rows.append(f"each set has {Number(counted.pairs):pair} of sharing and tape")
    names = [row_of(bits) for bits in sets]
    width = max(len(f"under {name}") for name in names)
    bars = max(len(bar(row[0], counted.pairs)) for row in counted.rows)
    head = "  ".join(f"{'under ' + name:>{width}}" for name in names)
    rows.append(f"values  {head}  parts per thousand")
    for number, (first, second, *parts) in enumerate(counted.rows):
        drawn = [f"{part:4} {bar(count, counted.pairs):{bars}}" for part, count in zip(parts, (first, second))]
        rows.append(f"{bits_of(number, counted):>6}  {first:{width}}  {second:{width}}  {'  '.join(drawn)}".rstrip())
    return rows + [compared(circuit, names, probes, counted)]


def bits_of(number: int, counted: masked.Counted) -> str:
    """A combination by the values of its wires, the lowest first."""
    return f"{number:0{counted.wires}b}" if counted.wires else "none"


def compared(circuit: Circuit, names: list[str], probes: list[int], counted: masked.Counted) -> str:
    for number, (first, second, *_) in enumerate(counted.rows):
        if first != second:
            return (f"the columns differ, first at {bits_of(number, counted)}: "
                    f"{Number(first):pair} under {names[0]}, {second:,} under {names[1]}")
    always = f", as for any two sets with fewer than {circuit.d} different probes" if len(set(probes)) < circuit.d else ""
    return f"the columns are equal{always}"


def finding(rule: int, word: int, circuit: Circuit, sets: list[list[int]], probes: list[int], read: list[int]) -> Finding:
    """What was found and wanted where a count broke a rule: 15, 18, 19, 24 or 25."""
    if rule == 15:
        return Finding("{wanted:secret bit} wanted in each set, one for each IN; "
                       "{first} in the first and {second} in the second given",
                       {"wanted": circuit.inputs, "first": len(sets[0]), "second": len(sets[1])})
    if rule == 18:
        at = int(word >= len(sets[0]))
        place = word - at * len(sets[0])
        return Finding("digit {place} of the " + ("first", "second")[at] + " set is {found}",
                       {"place": place + 1, "found": sets[at][place]})
    if rule == 19:
        return no_such_wire(probes[word], circuit)
    if rule == 24:
        shares = (circuit.d - 1) * circuit.inputs
        return Finding("{shares:free share} of {inputs:IN} and {randoms:random bit} are {total:free bit}",
                       {"shares": shares, "inputs": circuit.inputs, "randoms": circuit.randoms, "total": shares + circuit.randoms})
    return Finding("the probes read {found:wire}", {"found": len(read)})
