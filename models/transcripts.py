#!/usr/bin/env -S python3 -B
"""Says what transcripts of `run`, `recover` and `upgrade` want, by the models of whole runs and of openings, which share nothing with the
journal.

usage: transcripts.py FILE.txt ..

Each file is one of tests/transcripts. Of its cases those count whose first command makes a script or a log, and whose second one is `jbench
run` and prints no message, or `recover` or `upgrade` without options. A line tells how many of them want what the model says, and each
other case is printed with both texts. The model knows no messages but those of refusals, and of these no line that depends on home.
"""
import re
import sys
from pathlib import Path

from openings import GREATEST, indented, log_of, opening, upgrade
from refusals import refusal_lines
from run_model import options_of, outcome_of

sys.path.append(str(Path(__file__).resolve().parent.parent / "tests" / "transcripts"))
from transcript import read  # noqa: E402


def tell_run(words, script):
    lines = outcome_of(script, options_of(words)).lines
    return "\n".join([*lines, f"exit {0 if lines[-1] == 'verdict ok' else 2}"])


def told_refused(line):
    """What a command says that is refused."""
    return "".join(f"stderr: {told}\n" for told in refusal_lines(line.removeprefix("refusal ")).splitlines()) + "exit 1"


def tell_recover(_, spelled):
    """What `recover` prints, and the first line of what it says."""
    line = opening(*log_of(spelled))[0]
    if line.startswith("refusal"):
        return told_refused(line)
    if line.startswith("recovered"):  # the number was written into the log, and the next opening finds none above it
        line = line.replace(f" next={GREATEST} ", " next=none ")
    return f"{line}\nexit 0"


def tell_upgrade(_, spelled):
    line = upgrade(log_of(spelled)[0])[0]
    return told_refused(line) if line.startswith("refusal") else f"{line}\nexit 0"


MODELS = {"run": tell_run, "recover": tell_recover, "upgrade": tell_upgrade}


def texts_of(case):
    """What the model says of a case, and what that wants; none where the model is not asked."""
    if len(case.commands) != 2:
        return None
    made, command = case.commands
    given = re.fullmatch(r"[^\n]* <<'?END'?\n(.*)\nEND", made.text, re.DOTALL)
    kind, _, *words = command.text.split()[1:]
    if not given or kind not in MODELS or "--json" in command.text or (command.err if kind == "run" else " --" in command.text):
        return None
    wanted = [*command.out, *("stderr: " + line for line in command.err), f"exit {command.status}"]
    return MODELS[kind](words, given[1].strip()), "\n".join(wanted)


def main():
    for path in sys.argv[1:]:
        cases = [(case.name, *texts) for case in read(Path(path).read_text()) if (texts := texts_of(case))]
        others = [(name, said, wanted) for name, said, wanted in cases if said != wanted]
        print(f"{path}: {len(cases) - len(others)} of {len(cases)} cases want what the model says")
        for name, said, wanted in others:
            print(f"  {name}\n    wanted:\n{indented(wanted)}\n    by the model:\n{indented(said)}")


if __name__ == "__main__":
    main()
