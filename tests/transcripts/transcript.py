"""Reads transcripts: text files that show commands as a terminal does, with what each prints.

A transcript begins with lines that say what it shows. Then come its cases, each in a new empty folder:

    == the name of the case
      $ cat >a.json <<END
      > {"ops": 1}
      > END
      $ jbench check a.json
      stderr: jbench: bad script
      stderr:   key "ops": a list of at most 100000 operations is wanted
      exit 1

Lines of a terminal are set in by two blanks: a command for bash, its further lines, and then all that it prints. A line of standard error has
`stderr: ` in front, and a status that is not 0 is the last line. Empty lines count for nothing.

Where a number is another one each time, `{number}` stands for its digits; a line `{lines}` stands for one line or more, with empty ones
between and before them.
`<2 4 1|#=@ >` is `2=3 3=4 4=5 `: the text after the bar for each number from 2 to 4, with the number for `#`, the number plus 1 for `@`, and
that in base 16 for `$`.
"""
import re
import sys
from dataclasses import dataclass
from pathlib import Path

sys.path.append(str(Path(__file__).resolve().parents[2] / "models"))
from openings import written_out  # noqa: E402


class Unread(Exception):
    """A text that is no transcript, and why."""


@dataclass
class Command:
    """A command, the line of the file that it stands in, and what it has to print, line by line, and its status."""

    line: int
    text: str
    out: list
    err: list
    status: int


@dataclass
class Case:
    """The name of a case, and its commands in order."""

    name: str
    commands: list


def read(text):
    """The cases of a transcript."""
    head, *parts = re.split(r"^== ", text, flags=re.MULTILINE)
    if not head.strip() or re.search(r"^ ", head, re.MULTILINE):
        raise Unread("line 1: it has to begin with lines that say what it shows")
    if not parts:
        raise Unread("it has no case")
    cases, line = [], head.count("\n") + 1
    for part in parts:
        cases.append(case_of(part, line))
        line += part.count("\n")
    return cases


def case_of(part, first):
    """The case in this text, whose name stands in this line of the file."""
    name, *lines = part.split("\n")
    groups = []
    for number, line in enumerate(lines, first + 1):
        if not line.strip():
            continue
        if not line.startswith("  "):
            raise Unread(f"line {number}: it is not set in by two blanks")
        if line.startswith("  $ "):
            groups.append((number, [line[4:]], []))
        elif not groups:
            raise Unread(f"line {number}: no command stands before it")
        elif line[:4].rstrip() == "  >" and not groups[-1][2]:
            groups[-1][1].append(line[4:])
        else:
            groups[-1][2].append(line[2:])
    if not name.strip() or not groups:
        raise Unread(f"line {first}: a case has a name and a command")
    return Case(name.strip(), [command_of(*group) for group in groups])


def command_of(line, given, printed):
    """The command of these lines."""
    printed = written_out("\n".join(printed)).split("\n") if printed else []
    status = 0
    if printed and (last := re.fullmatch(r"exit ([1-9]\d*)", printed[-1])):
        status = int(last[1])
        printed.pop()
    printed = [shown for shown in printed if shown]
    err = [shown.removeprefix("stderr: ") for shown in printed if shown.startswith("stderr: ")]
    out = [shown for shown in printed if not shown.startswith("stderr: ")]
    return Command(line, written_out("\n".join(given)), out, err, status)


def pattern_of(lines):
    """What matches the text of these lines."""
    parts = re.split(r"(\{number\}|\{lines\})", "".join(line + "\n" for line in lines))
    return "".join({"{number}": r"[0-9]+", "{lines}": r"\n*[^\n]+(?:\n[^\n]*)*?"}.get(part, re.escape(part)) for part in parts)
