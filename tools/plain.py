"""What `show plain` prints of an accepted circuit: where it is made of whole sharings, its plain circuit, the OUTs and the truth
table; otherwise the frame that fits no sharing, in plain words.

The yes or no is the proved call's; the sharings are sharings.py's. Where the two disagree, nothing is shown: that would be a fault of
these tools. With at most 8 INs each set of secret bits is evaluated by the proved call too, and nothing is shown where a sharing adds
up to another bit than the plain circuit gives. With more INs there is no evaluation.
"""
from __future__ import annotations

from array import array

import masked
from circuit import AND, CON, IN, NOT, REF, REG, XOR, Circuit
from explain import Number, line_row, told
from outcomes import Refusal, Trouble
from sharings import Mixed, Sharing, Sharings

# A truth table has a row, and an evaluation, for each set of secret bits, so 256 at most.
MOST_INPUTS = 8
# From this many INs on, the truth table is also told in hexadecimal, a row for each 16 sets.
SBOX_INPUTS = 4
# How to flip a bit in whole sharings, for even d and for odd d.
FLIPS = ("where d is even, a run of NOTs leaves the bit as it is; XORs with constants whose sum is 1 flip it (examples/whole-d2.hex)",
         "where d is odd, a run of NOTs, one for each share, flips the bit (examples/whole-d3.hex)")


def shown(name: str, circuit: Circuit, table: array, lines: list[bytes]) -> list[str]:
    """The plain circuit of a circuit whose answer is yes; a no is raised as a refusal."""
    refused, mixed, sharings = None, None, None
    try:
        masked.check_sharings(table)
    except masked.Refused as no:
        refused = no
    try:
        sharings = Sharings(circuit)
    except Mixed as no:
        mixed = no
    proved = (int(refused.rule), refused.frame, refused.word) if refused else None
    found = (int(masked.Rule.NOT_A_SHARING), mixed.frame, 0) if mixed else None
    if proved != found:
        raise internal(name, f"the proved call answers {spot(proved)}, this tool finds {spot(found)}")
    if mixed:
        raise Refusal(f"{name}: no: {refused}\n" + "\n".join(explained(circuit, lines, mixed)))
    return listing(name, circuit, table, sharings)


def spot(answer: tuple[int, int, int] | None) -> str:
    return "refused {} frame {} word {}".format(*answer) if answer else "yes"


def internal(name: str, why: str) -> Trouble:
    return Trouble(f"{name}: internal error, so nothing is shown: {why}")


def explained(circuit: Circuit, lines: list[bytes], mixed: Mixed) -> list[str]:
    """The rule, what was found, and the lines where that is; a hint where NOTs are no run."""
    rows = told(masked.Rule.NOT_A_SHARING, 0, mixed.found) + [line_row(lines, mixed.frame)]
    if mixed.shows != mixed.frame:
        rows.append(line_row(lines, mixed.shows))
    if circuit.frames[mixed.frame][0] == NOT and "word" not in mixed.found.facts:
        rows.append(f"  hint: {FLIPS[circuit.d % 2]}")
    return rows


def listing(name: str, circuit: Circuit, table: array, sharings: Sharings) -> list[str]:
    """The sharings with their plain bits, the OUTs, and the truth table."""
    rows = [f"yes: {Number(len(sharings.found)):whole sharing} of {circuit.d} wires, {Number(sharings.inputs):IN}, "
            f"{Number(len(sharings.outputs)):OUT}", ""]
    rows += gates(circuit.d, sharings.found)
    rows += [f"OUT {number} on line {frame + 1} is sharing {sharing}" for number, (frame, sharing) in enumerate(sharings.outputs)]
    bits = []
    if sharings.inputs <= MOST_INPUTS:
        bits = bits_of(circuit.d, sharings)
        hold_to_evaluations(name, circuit, table, sharings, bits)
    if not sharings.outputs:
        return rows + ["there is no OUT, so no truth table"]
    if sharings.inputs > MOST_INPUTS:
        return rows + ["", f"a truth table is shown for at most {MOST_INPUTS} INs, and here are {sharings.inputs}"]
    return rows + truth(sharings, bits)


def gates(d: int, found: list[Sharing]) -> list[str]:
    """A row for each sharing: its number, lines and wires, and what its plain bit is."""
    if not found:
        return []
    cells = [("sharing", "lines", "wires", "hex", "plain bit")]
    for number, sharing in enumerate(found):
        lines = range(sharing.frames.start + 1, sharing.frames.stop + 1)
        cells.append((f"{number:7}", span(lines), span(sharing.wires), span(sharing.wires, "{:04X}"), plain_bit(d, sharing)))
    wide = [max(map(len, column)) for column in zip(*cells)]
    return ["  ".join(f"{cell:{width}}" for cell, width in zip(row, wide)).rstrip() for row in cells] + [""]


def span(numbers: range, form: str = "{}") -> str:
    """The first and the last of numbers in a row."""
    return " to ".join(form.format(number) for number in dict.fromkeys((numbers[0], numbers[-1])))


def plain_bit(d: int, sharing: Sharing) -> str:
    """The bit of a sharing, by the numbers of the sharings that it takes."""
    parts = ("sharings " if len(sharing.parts) > 1 else "sharing ") + " and ".join(map(str, sharing.parts))
    nots = f"{parts} flipped" if d % 2 else f"{parts} unchanged ({d} NOTs, even)"
    return {IN: f"IN {sharing.number}", CON: f"constant {sharing.number}", XOR: f"sum of {parts}", NOT: nots,
            REG: f"{parts} one clock later", AND: f"product of {parts}", REF: f"{parts} refreshed"}[sharing.kind]


def bits_of(d: int, sharings: Sharings) -> list[int]:
    """The plain bits of each sharing under all sets of secret bits: bit n of its number is the one under set n, where the first IN is
    the highest bit of n."""
    sets = range(1 << sharings.inputs)
    ones, bits = (1 << len(sets)) - 1, []
    for sharing in sharings.found:
        first, second = ([bits[part] for part in sharing.parts] + [0, 0])[:2]
        if sharing.kind == IN:
            bits.append(sum((number >> (sharings.inputs - 1 - sharing.number) & 1) << number for number in sets))
        elif sharing.kind == CON:
            bits.append(ones * sharing.number)
        elif sharing.kind == NOT:
            bits.append(first ^ ones * (d % 2))
        else:
            bits.append({XOR: first ^ second, AND: first & second}.get(sharing.kind, first))
    return bits


def hold_to_evaluations(name: str, circuit: Circuit, table: array, sharings: Sharings, bits: list[int]) -> None:
    """Adds up every sharing in a proved evaluation of each set of secret bits: its last share is the bit, all else is 0."""
    values, inputs = bytearray(masked.MOST_WIRES), sharings.inputs
    for number in range(1 << inputs):
        secrets = [number >> (inputs - 1 - at) & 1 for at in range(inputs)]
        shares = [bit for secret in secrets for bit in [0] * (circuit.d - 1) + [secret]]
        masked.evaluate(table, shares, [0] * circuit.randoms, values)
        for at, sharing in enumerate(sharings.found):
            if sum(values[sharing.wires[0]:sharing.wires[-1] + 1]) % 2 != bits[at] >> number & 1:
                raise internal(name, f"under set {number} sharing {at} adds up to another bit than the plain circuit gives")


def truth(sharings: Sharings, bits: list[int]) -> list[str]:
    """A row for each set of secret bits, in rising order; of an S-box also in hexadecimal."""
    inputs, sets = sharings.inputs, range(1 << sharings.inputs)
    outputs = ["".join(str(bits[sharing] >> number & 1) for _, sharing in sharings.outputs) for number in sets]
    wide = max(7, inputs)
    rows = ["", f"{'secrets':{wide}}  OUT sums"]
    rows += [f"{f'{number:0{inputs}b}' if inputs else '-':{wide}}  {outputs[number]}" for number in sets]
    if inputs < SBOX_INPUTS:
        return rows
    digits = -(-len(sharings.outputs) // 4)
    words = [f"{int(row, 2):0{digits}X}" for row in outputs]
    return rows + ["", "OUT sums in hexadecimal, 16 sets a row"] + [" ".join(words[at:at + 16]) for at in range(0, len(sets), 16)]
