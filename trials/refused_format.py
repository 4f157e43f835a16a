#!/usr/bin/env -S python3 -B
"""A `format` that is refused, beside another program's log of the same name: that log is never lost, and no file goes away.

usage: refused_format.py [--program PATH] [COUNT] [SEED]     so many races (default: 1000 from seed 1)

In each race a `format` over `log` is refused: its home area is the log itself, has no folder, is a folder, or is locked by this script;
or with --keep-home it is missing or too short. Beside it another program makes a log at the same name, and applies two blocks with
--stay. Either may begin, and half of the races delay calls of the refused one by strace, where that is there: its openings, its locks and
whatever takes a file away. In one race of four a log that was made before is renamed to that name meanwhile. After it:

- the refused program ends with 1, prints nothing, and names its home area or the log;
- `log` is there, and where it was empty or a log before the other file was renamed or made, it is what came last;
- where `wait 1 = 2` was printed, `recover` ends well, and home has both blocks;
- no file of the folder went away.

At the first difference all of it is printed, and nothing more is run (exit status 1). The program is `./jbench`, which is built first, or the
one at PATH. Run it by hand.
"""
import fcntl
import os
import shutil
import subprocess
import sys
import time
from collections import Counter

from runs import TOP, Difference, compare_all

SCRIPT = TOP / "examples" / "two_blocks.json"
DELAYED = ("openat:delay_exit", "openat:delay_enter", "flock:delay_enter", "flock:delay_exit", "unlink,unlinkat:delay_enter")
BLOCKS = {9: b"\x11", 10: b"\x22"}
HELD = ("another program has it", " took its lock")


def has_strace():
    return bool(shutil.which("strace")) and subprocess.run(["strace", "-o", os.devnull, "true"], capture_output=True).returncode == 0


class Races:
    """A program that is refused, and another one beside it."""

    def __init__(self, program, folder, draw):
        self.program, self.folder, self.draw = str(program), folder, draw
        self.log, self.home = folder / "log", folder / "home"
        self.traced = has_strace()
        self.cases = Counter()

    def refused(self):
        """The words of a `format` that is refused, and a file that is to stay open meanwhile."""
        kind = self.draw.choice(("log", "log", "log", "locked", "locked", "locked", "folder", "no folder", "missing", "short"))
        self.cases[kind] += 1
        if kind == "locked":
            held = open(self.folder / "locked", "a+b")
            fcntl.flock(held, fcntl.LOCK_EX)
            return ["format", self.log, held.name], held
        if kind == "short":
            short = open(self.folder / "short", "a+b")
            return ["format", self.log, short.name, "--keep-home"], short
        home = {"log": self.log, "folder": self.folder, "no folder": self.folder / "no" / "home", "missing": self.folder / "missing"}[kind]
        return ["format", self.log, home, *(["--keep-home"] if kind == "missing" else [])], None

    def delayed(self, words):
        """These words, some of whose calls are delayed."""
        if not self.traced or self.draw.random() < 0.5:
            return [self.program, *map(str, words)]
        self.cases["delayed"] += 1
        call = f"inject={self.draw.choice(DELAYED)}={self.draw.choice((2000, 20000, 60000))}"
        return ["strace", "-f", "-o", os.devnull, "-e", call, self.program, *map(str, words)]

    def call(self, *words):
        return subprocess.run([self.program, *map(str, words)], capture_output=True, text=True)

    def other(self):
        """Makes a log, and applies two blocks. The answer is what both came to."""
        made = None
        for _ in range(200):
            made = self.call("format", self.log, self.home)
            if made.returncode == 0:
                break
            time.sleep(0.001)
        applied = self.call("apply", self.log, self.home, SCRIPT, "--stay")
        for _ in range(200):
            if applied.returncode == 0 or not any(reason in applied.stderr for reason in HELD):
                break
            time.sleep(0.001)
            applied = self.call("apply", self.log, self.home, SCRIPT, "--stay")
        return made, applied

    def renamed(self):
        """Makes a log of another name, applies two blocks, and gives it the name."""
        other = self.folder / "other"
        made = self.call("format", other, self.home)
        applied = self.call("apply", other, self.home, SCRIPT, "--stay")
        time.sleep(self.draw.random() * 0.004)
        os.rename(other, self.log)
        return made, applied

    def once(self):
        for path in self.folder.iterdir():
            path.unlink()
        words, held = self.refused()
        by_name = self.draw.random() < 0.25
        first = self.draw.random() < 0.3
        told = [self.renamed() if by_name else self.other()] if first else []
        started = subprocess.Popen(self.delayed(words), stdout=subprocess.PIPE, stderr=subprocess.PIPE, text=True)
        if not first:
            time.sleep(self.draw.random() * self.draw.choice((0, 0.002, 0.02)))
            told = [self.renamed() if by_name else self.other()]
        there = set(os.listdir(self.folder))
        out, err = started.communicate()
        if held:
            held.close()
        given = f"{[str(word) for word in words]}: exit {started.returncode}, {out!r}, {err!r}\nthe other: {told}"
        if started.returncode != 1 or out or not err.startswith("jbench: file "):
            raise Difference(given)
        if not there <= set(os.listdir(self.folder)):
            raise Difference(f"{given}\nwas there: {sorted(there)}\nis there: {sorted(os.listdir(self.folder))}")
        self.cases["stays"] += "stays" in err
        _, applied = told[0]
        if "wait 1 = 2" not in applied.stdout:
            raise Difference(given)
        done = self.call("recover", self.log, self.home)
        home = self.home.read_bytes()
        if done.returncode != 0 or any(home[block * 1024 :][:1] != byte for block, byte in BLOCKS.items()):
            raise Difference(f"{given}\nrecover: {done}")
        self.cases["races"] += 1


if __name__ == "__main__":
    sys.exit(compare_all(1000, sys.argv[1:], Races))
