"""Input that a shell cannot make: a connection that is reset, and a terminal. Tries judge and show.

Exit status: 0 where all passed."""
from __future__ import annotations

import os
import pty
import socket
import struct
import subprocess
import sys
import time
from pathlib import Path

ROOT = Path(__file__).resolve().parents[2]
CIRCUIT = (ROOT / "examples" / "circuit-a.hex").read_bytes()
FOUR_LINES = b"".join(CIRCUIT.splitlines(keepends=True)[:4])
LIMIT = 20


def reset_after(sent: bytes) -> socket.socket:
    """A connection whose other side sends these bytes and is then reset."""
    listener = socket.create_server(("127.0.0.1", 0))
    reader = socket.create_connection(listener.getsockname())
    writer, _ = listener.accept()
    writer.sendall(sent)
    time.sleep(0.2)
    writer.setsockopt(socket.SOL_SOCKET, socket.SO_LINGER, struct.pack("ii", 1, 0))
    writer.close()
    listener.close()
    time.sleep(0.2)
    return reader


def run(words: list[str], stdin) -> tuple[int, str, str]:
    done = subprocess.run(words, stdin=stdin, capture_output=True, text=True, cwd=ROOT, timeout=LIMIT)
    return done.returncode, done.stdout, done.stderr


def of_a_reset(words: list[str]) -> tuple[int, str, str]:
    with reset_after(FOUR_LINES) as reader:
        return run(words, reader)


def at_a_terminal() -> tuple[int, str, str]:
    """judge with no file, the circuit typed and ended by Ctrl-D."""
    ours, theirs = pty.openpty()
    process = subprocess.Popen(["./judge"], stdin=theirs, stdout=subprocess.PIPE, stderr=subprocess.PIPE, text=True, cwd=ROOT)
    os.close(theirs)
    os.write(ours, CIRCUIT + b"\x04")
    output, said = process.communicate(timeout=LIMIT)
    os.close(ours)
    return process.returncode, output, said


def main() -> int:
    accepted = "accepted wires 28 random 1 latency 3\n"
    cases = [
        ("judge, a connection reset after four of seven lines", of_a_reset(["./judge"]),
         (2, "", "judge: standard input: not all of it could be read (Connection reset by peer)\n")),
        ("show, the same", of_a_reset(["./show", "wires", "-"]), (2, "", "show: standard input: Connection reset by peer\n")),
        ("show text, the same", of_a_reset(["./show", "text", "-"]), (2, "", "show: standard input: Connection reset by peer\n")),
        ("show clocks, the same in its feed", of_a_reset(["./show", "clocks", "examples/circuit-a.hex", "--feed", "-"]),
         (2, "", "show: standard input: Connection reset by peer\n")),
        ("judge at a terminal", at_a_terminal(),
         (0, accepted, "judge: reading the circuit from standard input; Ctrl-D ends it\n")),
    ]
    failed = [(name, got, wanted) for name, got, wanted in cases if got != wanted]
    for name, got, wanted in failed:
        print(f"FAILED {name}\n  expected: {wanted}\n  got:      {got}")
    print(f"streams: {len(cases) - len(failed)} passed, {len(failed)} failed")
    return 1 if failed else 0


if __name__ == "__main__":
    sys.exit(main())
