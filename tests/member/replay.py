"""Replays transcripts: runs each command of a file and compares what it writes with what stands below it.

    replay.py FILE..          compares; in a Markdown file, the commands ./judge, ./show and cat of its code blocks
    replay.py --write FILE    writes anew what stands below each command

A command's line begins with `$ `; it is run by bash at the repository's top, both outputs together. Another exit status than 0 is
the last line, as `[status 1]`, which a Markdown file leaves out.
"""
from __future__ import annotations

import os
import re
import subprocess
import sys
from pathlib import Path

ROOT = Path(__file__).resolve().parents[2]


def said(command: str) -> str:
    done = subprocess.run(["bash", "-c", command], cwd=ROOT, stdout=subprocess.PIPE, stderr=subprocess.STDOUT, text=True,
                          timeout=60, env={**os.environ, "COLUMNS": "80"})
    return done.stdout + (f"[status {done.returncode}]\n" if done.returncode else "")


def steps(text: str) -> list[tuple[str, str]]:
    """Each command with the text below it."""
    parts = re.split(r"^\$ (.*)\n", text, flags=re.MULTILINE)
    return list(zip(parts[1::2], parts[2::2]))


def steps_of(path: Path) -> list[tuple[str, str]]:
    text = path.read_text()
    if path.suffix != ".md":
        return steps(text)
    blocks = re.findall(r"^```\n(.*?)^```$", text, flags=re.MULTILINE | re.DOTALL)
    return [step for block in blocks for step in steps(block) if step[0].startswith(("./judge", "./show", "cat "))]


def main() -> int:
    if sys.argv[1] == "--write":
        path = Path(sys.argv[2])
        path.write_text("".join(f"$ {command}\n{said(command)}" for command, _ in steps(path.read_text())))
        return 0
    passed = failed = 0
    for path in map(Path, sys.argv[1:]):
        for command, wanted in steps_of(path):
            got = said(command)
            if path.suffix == ".md":
                got = re.sub(r"\[status \d+\]\n$", "", got)
            passed, failed = passed + (got == wanted), failed + (got != wanted)
            if got != wanted:
                print(f"FAILED {path.name}: $ {command}\n--- expected\n{wanted}--- got\n{got}---")
    print(f"replay: {passed} passed, {failed} failed")
    return 1 if failed else 0


if __name__ == "__main__":
    sys.exit(main())
