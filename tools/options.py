"""The words of the command `show`: what it is asked, on which file, with which bits and probes."""
from __future__ import annotations

import argparse
import sys

from explain import Finding
from inputs import digits, wire
from outcomes import refusal

STDIN = "standard input"
EXAMPLES = """examples:
  ./show wires examples/circuit-a.hex
  ./show values examples/circuit-a.hex --shares 1011 --tape 1
  ./show values examples/circuit-a.hex --secrets 11
  ./show reading examples/circuit-a.hex --secrets 11 --probe 24 --probe 0x0E
  ./show counts examples/circuit-a.hex --secrets 00 --secrets 11 --probe 24
  ./show clocks examples/circuit-a.hex --feed examples/circuit-a.feed
  ./show plain examples/whole-d3.hex
  ./show verilog examples/circuit-a.hex
  ./show text examples/circuit-a.words

FILE is a circuit's text, as docs/FORMAT.md describes it; - is standard input.
For `text` it is a table, 16-bit words as a tool writes them.
The proved library is built on first use, which takes three to five minutes
and needs the Rattle toolchain (rt) and a C compiler (cc).
Exit status: 0 shown, 1 refused, 2 trouble."""
FEED = """A line of the feed is one clock: share bits, one space, random bits. The shares
stand IN by IN, label by label, the random bits in the order of the gadgets.
A - stands for no bits, and random bits that are left out are none:

  1011 1   four shares and a random bit
  1011     four shares, no random bits (as 1011 -)
  - 011    no shares, three random bits
  -        no bits at all, for a circuit that takes none

A line with too few or too many bits, or with another digit than 0 and 1, is
refused by the call: the refusal is shown, the clock's number stays, and the
exit status is 1 in the end. A line of another form, an empty one too, is
trouble: nothing is run."""
COMMANDS = {
    "wires": "the number (decimal, hexadecimal), line, name, label and stage of each wire, whether it is registered, "
             "and whether a probe stops at it",
    "values": "the value of each wire, and the shares of each IN and OUT with their sum",
    "reading": "the wires that the probes read together, with their values",
    "counts": "under how many sharings and tapes of two sets of secret bits each combination of the wires that the probes read "
              "arises",
    "clocks": "what the OUTs give clock by clock, run as a pipeline that is fed new bits on every clock",
    "plain": "whether a circuit is made of whole sharings, and then its plain circuit, its OUTs and its truth table",
    "verilog": "an accepted circuit as a Verilog-2001 module, for a simulator",
    "text": "the text of a table that a tool has written, where it keeps the rules",
}


class Parser(argparse.ArgumentParser):
    """Help that cannot be written is trouble; argparse would pass over it."""

    def print_help(self, file=None) -> None:
        sys.stdout.write(self.format_help())


def options_of(words: list[str]) -> argparse.Namespace:
    """What the command's words ask; words that are wrong end the program."""
    parser = Parser(prog="show", description="Shows what stands in a masked circuit.", epilog=EXAMPLES,
                    formatter_class=argparse.RawDescriptionHelpFormatter)
    commands = parser.add_subparsers(dest="command", metavar="COMMAND", required=True)
    by_name = {}
    for name, text in COMMANDS.items():
        command = by_name[name] = commands.add_parser(name, help=text, description=f"Shows {text}.")
        kind = "a table, 16-bit words, little endian" if name == "text" else "a circuit's text"
        command.add_argument("file", metavar="FILE", help=f"{kind}; - is standard input")
    add_options(by_name)
    options = parser.parse_args(words)
    check_options(by_name[options.command], options)
    return options


def add_options(by_name: dict[str, argparse.ArgumentParser]) -> None:
    by_name["text"].add_argument("--big-endian", action="store_true", help="the high byte of each word comes first")
    for command in (by_name["values"], by_name["reading"]):
        add_inputs(command)
    by_name["counts"].add_argument("--secrets", type=digits, action="append", required=True, metavar="BITS",
                                   help="a digit 0 or 1 for each IN; given twice, a set each")
    for command in (by_name["reading"], by_name["counts"]):
        command.add_argument("--probe", type=wire, action="append", required=True, metavar="WIRE",
                             help="a wire's number, decimal or as 0x..; may be given again")
    clocks = by_name["clocks"]
    clocks.formatter_class, clocks.epilog = argparse.RawDescriptionHelpFormatter, FEED
    clocks.add_argument("--feed", required=True, metavar="FEED", help="a file with a line for each clock; - is standard input")
    clocks.add_argument("--wires", action="store_true", help="every wire's value too, a column for each clock")


def add_inputs(command: argparse.ArgumentParser) -> None:
    command.add_argument("--shares", type=digits, metavar="BITS", help="a digit 0 or 1 for each share, IN by IN, label by label")
    command.add_argument("--tape", type=digits, metavar="BITS", help="a digit 0 or 1 for each random bit")
    command.add_argument("--secrets", type=digits, metavar="BITS",
                         help="a digit 0 or 1 for each IN: shares and tape are drawn, and told")
    command.add_argument("--seed", type=int, metavar="N", help="what to draw by; the same number draws the same again")


def check_options(parser: argparse.ArgumentParser, options: argparse.Namespace) -> None:
    """What argparse does not ask of a command's options."""
    if options.command in ("values", "reading"):
        check_inputs(parser, options)
    if options.command == "counts" and len(options.secrets) != 2:
        parser.error("give --secrets twice, a set of secret bits each")
    if options.command == "clocks" and options.file == options.feed == "-":
        parser.error("only one of FILE and FEED can be standard input")
    for name in ("file", "feed"):
        if getattr(options, name, None) == "-":
            setattr(options, name, STDIN)


def check_inputs(parser: argparse.ArgumentParser, options: argparse.Namespace) -> None:
    """Shares and tape, or secrets: one of the two."""
    given = options.shares is not None or options.tape is not None
    if given == (options.secrets is not None):
        parser.error("give either --shares and --tape, or --secrets")
    if options.seed is not None and given:
        parser.error("--seed goes with --secrets")
    for place, secret in enumerate(options.secrets or []):
        if secret > 1:
            raise refusal(18, Finding("digit {place} of the secrets is {found}", {"place": place + 1, "found": secret}))
