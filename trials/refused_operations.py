#!/usr/bin/env -S python3 -B
"""`jbench apply` of scripts in which an operation is refused: it ends there, and what is left has nothing of the running transaction.

usage: refused_operations.py [--program PATH] [COUNT] [SEED]     so many random scripts (default: 100 from seed 1)

The scripts are those of runs.py. At each of some places of each script, or at each place of a short one, an operation is put that is
refused: a write, a revoke or a read by an open handle of a block that home has not, credits that no transaction can have, or a direct
write of such a block. Each time `apply` has to print the lines of a separate model (killed_apply.py) up to the first refusal, its text
on standard error, and to end with 1; both files hold what the model holds there; and `recover` brings home what the model says: the
transactions that were committed, and nothing of the one that was running. At the first difference the script is printed, and nothing
more is run (exit status 1). The program is `./jbench`, which is built first, or the one at PATH. Run it by hand.
"""
import json
import subprocess
import sys
from collections import Counter
from pathlib import Path

sys.path.append(str(Path(__file__).resolve().parent.parent / "models"))

from killed_apply import Apply, Left
from refusals import refusal_lines
from runs import Difference, RandomScript, compare_all

PLACES = 12  # of a script that has more operations


def refused_at(draw, script, place):
    """The script with an operation at this place that is refused, by a handle that is open there where one is."""
    handles = set()
    for operation in script["ops"][:place]:
        if operation[0] == "start":
            handles.add(operation[1])
        elif operation[0] == "stop":
            handles.discard(operation[1])
    home = script.get("home", 64)
    words = [["direct", home, "00"]]
    if handles:
        name = draw.choice(sorted(handles))
        words += [["write", name, home, "00"], ["revoke", name, home], ["read", name, home], ["extend", name, 2**64 - 1]]
    operations = script["ops"][:place] + [draw.choice(words)] + script["ops"][place:]
    return json.dumps({**script, "ops": operations})


class Refusals:
    """The program, its files, and how often it did what the model says."""

    def __init__(self, program, folder, draw):
        self.program, self.draw = program, draw
        self.log, self.home, self.script = folder / "log", folder / "home", folder / "script"
        self.cases = Counter()

    def jbench(self, *words):
        done = subprocess.run([str(word) for word in (self.program, *words)], capture_output=True, text=True)
        return done.returncode, done.stdout, done.stderr

    def compare(self, text):
        whole = Apply(text, True)
        refused = next((i for i, line in enumerate(whole.lines) if " = refused " in line), None)
        if refused is None:  # the operation at the place was not reached, or was skipped
            self.cases["not refused"] += 1
            return
        script = json.loads(text)
        apply = Apply(json.dumps({**script, "ops": script["ops"][:refused]}), True)
        for path, area in ((self.log, "log"), (self.home, "home")):
            path.write_bytes(b"".join(apply.blocks(0)[area]))
        self.script.write_text(text)
        lines = "".join(f"{line}\n" for line in whole.lines[: refused + 1])
        wanted = (1, lines, refusal_lines(whole.lines[refused].partition(" = refused ")[2]))
        found = self.jbench("apply", self.log, self.home, self.script)
        if found != wanted:
            raise Difference(f"script: {text}\nwanted: {wanted}\nfound: {found}")
        left = Left(apply, len(apply.device.made), apply.showns[-1])
        self.compare_files(apply.blocks(len(apply.device.made)), f"script: {text}\nbehind the refusal")
        wanted = (0, f"{left.line}\n", "")
        found = self.jbench("recover", self.log, self.home)
        if found != wanted:
            raise Difference(f"script: {text}\nrecover: wanted {wanted}, found {found}")
        self.compare_files(left.behind, f"script: {text}\nrecovered")
        if not left.is_right():
            raise Difference(f"script: {text}\nn={left.n}: home is not what {left.n} transactions leave")
        self.cases["refused " + whole.lines[refused].rpartition(" ")[2]] += 1

    def compare_files(self, blocks, given):
        for path, area in ((self.log, "log"), (self.home, "home")):
            if path.read_bytes() != b"".join(blocks[area]):
                raise Difference(f"{given}: {area} holds other bytes than the model says")

    def once(self):
        script = json.loads(RandomScript(self.draw).text())
        places = range(len(script["ops"]) + 1)
        for place in places if len(places) <= PLACES else sorted(self.draw.sample(places, PLACES)):
            self.compare(refused_at(self.draw, script, place))
        self.cases["scripts"] += 1


if __name__ == "__main__":
    sys.exit(compare_all(100, sys.argv[1:], Refusals))
