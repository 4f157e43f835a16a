#!/usr/bin/env -S python3 -B
"""A write of `jbench apply` of which a stop leaves only some sectors: what is recovered is all of a transaction or nothing of it.

usage: torn_sectors.py [--program PATH] [COUNT] [SEED]     so many random scripts (default: 100 from seed 1)

That a block is written whole or not at all is a premise of the journal. Disks promise it of a sector of 512 bytes, and blocks have two,
four or eight of them. Here it is broken: the files hold what a model of the apply (killed_apply.py) holds before one of its writes, and
of the block of this write some sectors as they were and some as they are written. For each of the writes that are drawn of a script:

- `recover` ends well, or is refused with Damage or Ahead and leaves both files as they are; then `recover --before-damage` ends well;
- each home block is then as it is recovered before that write, or each is as it is recovered after it: so nothing that was
  acknowledged is lost, and no transaction is there by half. A home block that is torn itself, and whose last entry in the
  transactions found is a revoke, holds what nobody may read, and is left out.

The scripts are those of runs.py without direct writes: a block that is written past the log stands nowhere else. At the first
difference the script, the write and its sectors are printed, and nothing more is run (exit status 1). The program is `./jbench`,
which is built first, or the one at PATH. Run it by hand.
"""
import json
import subprocess
import sys
from collections import Counter
from pathlib import Path

sys.path.append(str(Path(__file__).resolve().parent.parent / "models"))

from killed_apply import Apply, Left
from openings import DESCRIPTOR, REVOKE, has_magic, word
from runs import Difference, RandomScript, compare_all

SECTOR = 512
MOST_WRITES = 40  # of a script
LONG = 400  # blocks of a log
REFUSED = ("jbench: refusal 21 Ahead ", "jbench: refusal 22 Damage ")


def without_direct_writes(text):
    script = json.loads(text)
    script["ops"] = [operation for operation in script["ops"] if operation[0] not in ("direct", "sync")] or [["turn"]]
    return json.dumps(script)


def is_list(block):
    """Whether it is a descriptor or a revoke block."""
    return has_magic(block) and word(block, 4) in (DESCRIPTOR, REVOKE)


def script_of(draw, is_long):
    """A random script; a long one has a log for transactions that fill a descriptor, so that one may be torn between its tags."""
    script = RandomScript(draw)
    while is_long and script.length < LONG:
        script = RandomScript(draw)
    return script


def torn(draw, old, new):
    """Some sectors of the one block, and the others of the other, and which are new."""
    count = len(old) // SECTOR
    sectors = draw.sample(range(count), draw.randrange(1, count))
    part = [(new if i in sectors else old)[i * SECTOR : (i + 1) * SECTOR] for i in range(count)]
    return b"".join(part), sorted(sectors)


def is_revoked(apply, n, number):
    """Whether the last entry of a block in the first n transactions is a revoke."""
    entries = [entries[number] for _, entries in apply.journal.sealed[:n] if number in entries]
    return entries[-1:] == [None]


class Tearer:
    """The program, its files, and what came of them."""

    def __init__(self, program, folder, draw):
        self.program, self.log, self.home, self.draw = program, folder / "log", folder / "home", draw
        self.cases = Counter()

    def recover(self, *options):
        words = [self.program, "recover", self.log, self.home, *options]
        done = subprocess.run([str(word) for word in words], capture_output=True, text=True)
        return done.returncode, done.stdout, done.stderr.partition("\n")[0]

    def tear(self, apply, write, text):
        area, place, block = apply.device.made[write]
        held = apply.blocks(write)
        held[area][place], sectors = torn(self.draw, held[area][place], block)
        files = {self.log: b"".join(held["log"]), self.home: b"".join(held["home"])}
        for path, data in files.items():
            path.write_bytes(data)
        given = f"script: {text}\nwrite {write + 1}: {area} {place}, of which the sectors {sectors} are written"
        status, told, message = self.recover()
        if status != 0:
            if not message.startswith(REFUSED) or any(path.read_bytes() != data for path, data in files.items()):
                raise Difference(f"{given}\nrecover: exit {status}, {told!r}, {message!r}, or files that changed")
            self.cases[f"refused with {message.split()[3]}"] += 1
            status, told, message = self.recover("--before-damage")
            if status != 0:
                raise Difference(f"{given}\nrecover --before-damage: exit {status}, {told!r}, {message!r}")
        ends = [Left(apply, writes, 0) for writes in (write, write + 1)]
        wanted = [b"".join(end.behind["home"]) for end in ends]
        found = self.home.read_bytes()
        if area == "home" and any(is_revoked(apply, end.n, place) for end in ends):
            self.cases["of a revoked block"] += 1
            found, *wanted = [data[: place * len(block)] + data[(place + 1) * len(block) :] for data in (found, *wanted)]
        if found not in wanted:
            raise Difference(f"{given}\nwhat is recovered ({told!r}) is neither what was there before the write nor what is there after it")
        self.cases["torn writes"] += 1
        self.cases[f"of the {area} area"] += 1
        self.cases["that add a transaction"] += found == wanted[1] != wanted[0]

    def once(self):
        text = without_direct_writes(script_of(self.draw, self.cases["scripts"] % 4 == 0).text())
        apply = Apply(text, self.draw.random() < 0.5)
        writes = range(len(apply.device.made))
        if len(writes) > MOST_WRITES:
            lists = [i for i, (area, _, block) in enumerate(apply.device.made) if area == "log" and is_list(block)]
            lists = self.draw.sample(lists, min(len(lists), MOST_WRITES // 2))
            writes = sorted({*lists, *self.draw.sample(writes, MOST_WRITES // 2)})
        for write in writes:
            self.tear(apply, write, text)
        self.cases["scripts"] += 1


if __name__ == "__main__":
    sys.exit(compare_all(100, sys.argv[1:], Tearer))
