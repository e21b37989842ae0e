"""The clocks that `show clocks` runs: the lines of a feed, what each OUT shows on each clock and of which set, and why the proved
call refused a line."""
from __future__ import annotations

import re
from array import array
from dataclasses import dataclass

import masked
from circuit import AND, IN, KINDS, OUT, REF, Circuit, pairs
from explain import MEANINGS, shown
from inputs import Inputs, of_bits, row_of
from outcomes import Trouble
from rows import PLACE, place

MOST_BYTES = 1 << 20
LINE = re.compile(rb"(-|[0-9]+)(?: (-|[0-9]+))?")


@dataclass
class End:
    """What is fed or shown on each clock: the shares of an IN, the random bits of a gadget, or the wires of an OUT. `first` and
    `count` are of the shares, the random bits or the OUT's wires."""

    kind: int
    frame: int
    stage: int
    first: int
    count: int

    def set_on(self, clock: int) -> str:
        """The set that its bits belong to on a clock; before set 0 there is none."""
        return str(clock - self.stage) if clock >= self.stage else "-"

    @property
    def told_set(self) -> str:
        """The set on clock k."""
        return f"k-{self.stage}" if self.stage else "k"


@dataclass
class Clock:
    """A line of the feed that was a clock: its bits, the values of each OUT's wires, and those of all wires where they are listed."""

    inputs: Inputs
    outputs: list[list[int]]
    values: bytes


def ends_of(circuit: Circuit, notes: array) -> list[End]:
    """The INs, gadgets and OUTs in the order of their lines, with the stages of the notes: an AND's bits belong to that of b."""
    ends, shares, randoms = [], 0, 0
    starts: dict[int, int] = {}
    for number, wire in enumerate(circuit.wires):
        starts.setdefault(wire.frame, number)
    for frame, words in enumerate(circuit.frames):
        kind = words[0]
        if kind == IN:
            ends.append(End(kind, frame, masked.place(notes, starts[frame]).stage, shares, circuit.d))
            shares += circuit.d
        elif kind in (AND, REF):
            row = words[2 + circuit.d] if kind == AND else words[2]
            ends.append(End(kind, frame, masked.place(notes, row).stage, randoms, pairs(circuit.d)))
            randoms += pairs(circuit.d)
        elif kind == OUT:
            ends.append(End(kind, frame, masked.place(notes, words[1]).stage, 0, circuit.d))
    return ends


def feed_of(name: str, data: bytes) -> list[Inputs]:
    """The bits of each line of a feed. Digits past 1 and wrong lengths are let through: the call refuses them."""
    if len(data) > MOST_BYTES:
        raise Trouble(f"{name}: a feed has at most {MOST_BYTES:,} bytes")
    feed = []
    for number, line in enumerate(data.removesuffix(b"\n").split(b"\n") if data else []):
        parts = LINE.fullmatch(line)
        if parts is None:
            raise Trouble(f"{name}: line {number + 1} is no line of a feed: {fault(line)}")
        feed.append(Inputs(*([] if part in (None, b"-") else [digit - ord("0") for digit in part] for part in parts.groups())))
    return feed


def fault(line: bytes) -> str:
    """Why a line is none of a feed."""
    if not line:
        return "it is empty; - stands for no bits"
    other = re.search(rb"[^0-9 -]", line)
    if other is None:
        return f"share bits, one space and random bits are wanted, - for no bits: {shown(line)}"
    if other[0] == b"\r":
        return f"a carriage return stands in column {other.start() + 1}; lines end with a line feed alone"
    return f"the byte {other[0][0]:02X} in column {other.start() + 1} is no digit: {shown(line)}"


class Run:
    """A run from a bank of 0, and the rows that tell it."""

    def __init__(self, circuit: Circuit, table: array, notes: array, every: bool) -> None:
        """`every`: all wires are listed too."""
        self.circuit, self.table, self.every = circuit, table, every
        self.ends = ends_of(circuit, notes)
        self.inputs = [end for end in self.ends if end.kind == IN]
        self.outputs = [end for end in self.ends if end.kind == OUT]
        self.wide = max((len(f"line {end.frame + 1}") for end in self.outputs), default=0)
        self.clocks: list[Clock] = []
        self.refused = 0
        self.bank = masked.new_bank()

    def listing(self, feed: list[Inputs]) -> list[str]:
        """What belongs to which set, the clocks, the sets that came through, and every wire where that is asked."""
        rows = self.told_ends() + [self.heading()]
        for number, inputs in enumerate(feed):
            rows += self.step(number, inputs)
        if not feed:
            rows.append("the feed is empty: no clock was run")
        return rows + self.sets() + (self.wires() if self.every else [])

    def told_ends(self) -> list[str]:
        rows = ["fed or shown              stage  set on clock k"]
        for end in self.ends:
            bits = {IN: "shares", OUT: "values"}.get(end.kind, "tape") + f" of {KINDS[end.kind]} on line {end.frame + 1}"
            rows.append(f"{bits:25}{end.stage:6}  {end.told_set}")
        return rows + [""]

    def shares_of(self, shares: list[int]) -> str:
        """The shares IN by IN."""
        return " ".join(row_of(shares[end.first:end.first + end.count]) for end in self.inputs) or "-"

    def columns(self, clock: str, shares: str, tape: str) -> str:
        """The columns of what is fed, as wide as an accepted line asks."""
        wide = max(6, self.circuit.inputs * (self.circuit.d + 1) - 1), max(4, self.circuit.randoms)
        return f"{clock:>5}  {shares:{wide[0]}}  {tape:{wide[1]}}"

    def heading(self) -> str:
        fed = self.columns("clock", "shares", "tape")
        return f"{fed}  {'OUT':{self.wide}}  {'values':{max(6, self.circuit.d)}}  sum  set" if self.outputs else fed.rstrip()

    def step(self, number: int, inputs: Inputs) -> list[str]:
        """One clock by the proved call; a refusal in plain words."""
        values = bytearray(masked.MOST_WIRES)
        try:
            masked.clock(self.table, inputs.shares, inputs.tape, self.bank, values)
        except masked.Refused as refused:
            self.refused += 1
            return [f"line {number + 1} of the feed is refused, and is no clock: {line_of(inputs)}",
                    f"  rule {int(refused.rule)}: {MEANINGS[refused.rule]}",
                    f"  here: {of_bits(refused.rule, refused.word, self.circuit, inputs)}"]
        outputs = [[values[wire] for wire in self.circuit.frames[end.frame][1:]] for end in self.outputs]
        self.clocks.append(Clock(inputs, outputs, bytes(values[:len(self.circuit.wires)]) if self.every else b""))
        return self.clock_rows(len(self.clocks) - 1)

    def clock_rows(self, clock: int) -> list[str]:
        """The feed of a clock, and a row for each OUT."""
        inputs = self.clocks[clock].inputs
        fed = self.columns(str(clock), self.shares_of(inputs.shares), row_of(inputs.tape) if inputs.tape else "-")
        rows = []
        for end, bits in zip(self.outputs, self.clocks[clock].outputs):
            shows = f"{row_of(bits):{max(6, len(bits))}}  {sum(bits) % 2:3}  {end.set_on(clock):>3}"
            rows.append(f"{fed}  {f'line {end.frame + 1}':{self.wide}}  {shows}")
            fed = self.columns("", "", "")
        return rows or [fed.rstrip()]

    def sets(self) -> list[str]:
        """The sets that were fed and shown in full: the sums of their INs, and of their OUTs."""
        count = len(self.clocks) - max((end.stage for end in self.ends), default=0)
        if count < 1 or not self.outputs:
            return []
        wide = max(7, len(self.inputs))
        rows = ["", f"  set  {'secrets':{wide}}  OUT sums"]
        for number in range(count):
            fed = [self.clocks[number + end.stage].inputs.shares[end.first:end.first + end.count] for end in self.inputs]
            given = [self.clocks[number + end.stage].outputs[at] for at, end in enumerate(self.outputs)]
            rows.append(f"{number:5}  {sums(fed):{wide}}  {sums(given)}")
        return rows

    def wires(self) -> list[str]:
        """Every wire's value, a digit for each clock."""
        rows = ["", f"{PLACE}  clocks 0 to {len(self.clocks) - 1}" if self.clocks else PLACE.rstrip()]
        for number in range(len(self.circuit.wires)):
            rows.append(f"{place(number, self.circuit)}  {''.join(str(clock.values[number]) for clock in self.clocks)}".rstrip())
        return rows


def sums(rows: list[list[int]]) -> str:
    return "".join(str(sum(bits) % 2) for bits in rows) or "-"


def line_of(inputs: Inputs) -> str:
    """A line of the feed as it may be printed."""
    return shown(" ".join("".join(map(str, bits)) or "-" for bits in (inputs.shares, inputs.tape)).encode())
