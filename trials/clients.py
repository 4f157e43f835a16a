#!/usr/bin/env -S python3 -B
"""Random scripts for `jbench threads`: what it prints has to be what their text says, with each verdict ok.

usage: clients.py [--program PATH] [COUNT] [SEED]     runs so many random scripts (default: 1000 from seed 1)

A script has up to 8 clients, each with up to 8 handles, over logs and home areas of many measures. The clients write few blocks, so
that they meet at them, and revoke some; credits are drawn up to the most that a transaction of the log can have, which run_model.py
counts. Clients, starts and waits are counted here, from what was drawn. One script in five gets one fault, of each kind in turn: it has to
be refused with the line that names the client, the operation and the fault, and with nothing else.

Which handles share a transaction is up to the threads, so no model can say more of a run than its seven lines: the program judges
the rest by the journal's record and by what a stop leaves, and has to find it right.

At the first difference the script and both texts are printed, and nothing more is run (exit status 1). The program is `./jbench`, which
is built first, or the one at PATH. Run it by hand.
"""
import json
import random
import subprocess
import sys
import tempfile
from collections import Counter
from pathlib import Path

TOP = Path(__file__).resolve().parent.parent
sys.path.append(str(TOP / "models"))

from run_model import capacity

FORM = '["start", n], ["write", b, hex], ["revoke", b], ["stop"] or ["wait"] is wanted'


class RandomClients:
    """A script of clients that can be served, and how many handles they start and wait for."""

    def __init__(self, draw):
        self.draw = draw
        self.size = draw.choice((1024,) * 6 + (2048, 4096))
        self.length = draw.choice((17, 18, 20, 24, 33, 33, 64, 128, 300))
        self.home = draw.choice((1, 5, 64, 64, 1000))
        self.wide = draw.random() < 0.2
        self.capacity = capacity(self.size, self.length - 1, self.wide)
        count = min(self.home, draw.choice((1, 2, 4, 12, 40)))
        self.blocks = draw.sample(range(self.home), count)
        self.starts = self.waits = 0
        self.clients = [self.client() for _ in range(draw.randint(1, 8))]

    def client(self):
        """The operations of a client."""
        operations = []
        for _ in range(self.draw.choice((0, 1, 2, 4, 8))):
            operations += self.handle()
        return operations

    def handle(self):
        """Those of a handle, from its start to its stop or the wait for it."""
        draw = self.draw
        touched = draw.sample(self.blocks, draw.randint(0, min(len(self.blocks), self.capacity, 6)))
        touches = [self.touch(draw.choice(touched)) for _ in range(draw.randint(0, 8) if touched else 0)]
        least = len({touch[1] for touch in touches})
        credits = draw.choice((least, least, draw.randint(least, self.capacity), self.capacity))
        waits = draw.random() < 0.6
        self.starts += 1
        self.waits += waits
        return [["start", credits], *touches, ["stop"], *([["wait"]] if waits else [])]

    def touch(self, block):
        """A write or a revoke of a block."""
        if self.draw.random() < 0.15:
            return ["revoke", block]
        return ["write", block, self.draw.randbytes(self.draw.choice((0, 1, 8, self.size))).hex()]

    def text(self):
        """The script, with keys for the measures that are no defaults."""
        script = {"clients": self.clients}
        for key, value, default in (("block", self.size, 1024), ("length", self.length, 33), ("home", self.home, 64), ("wide", self.wide, False)):
            if value != default or self.draw.random() < 0.2:
                script[key] = value
        return script

    def wanted(self):
        """What the program prints."""
        verdicts = "".join(f"verdict {name} ok\n" for name in ("credits", "receipts", "order", "recovery"))
        return f"clients {len(self.clients)}\nhandles {self.starts}\nreceipts {self.waits}\n{verdicts}"


def spoiled(draw, made, kind):
    """A fault of this kind in one client, and the line that tells of it."""
    place = draw.randrange(len(made.clients))
    whole = made.clients[place]
    # where a client may have a fault and all before it is right: between two of its handles
    cuts = [0] + [k + 1 for k, op in enumerate(whole) if op[0] in ("stop", "wait") and (k + 1 == len(whole) or whole[k + 1][0] == "start")]
    cut = draw.choice(cuts)
    block = made.blocks[0]
    faults = {
        "too many credits": ([["start", made.capacity + 1], ["stop"]], 1, "a transaction of this log has fewer credits"),
        "too few credits": ([["start", 0], ["write", block, "01"], ["stop"]], 3, "its handle touches more blocks than it has credits"),
        "no block": ([["start", 1], ["write", made.home, "01"], ["stop"]], 2, "home has no such block"),
        "a start in a handle": ([["start", 0], ["start", 0]], 2, "a handle is open"),
        "a wait in a handle": ([["start", 0], ["wait"]], 2, "a handle is open"),
        "a write outside": ([["write", block, "01"]], 1, "no handle is open"),
        "a stop outside": ([["stop"]], 1, "no handle is open"),
        "a second wait": ([["start", 0], ["stop"], ["wait"], ["wait"]], 4, "it does not follow a stop"),
        "an open end": (None, None, "a handle is open at the end"),
        "another operation": ([["read", 1]], 1, FORM),
        "too many bytes": ([["start", 1], ["write", block, "00" * (made.size + 1)]], 2, FORM),
        "odd digits": ([["start", 1], ["write", block, "0"]], 2, FORM),
        "no whole number": ([["start", 1.5]], 1, FORM),
    }
    more, at, why = faults[kind]
    if more is None:
        made.clients[place] = whole + [["start", 0]]
        number = len(whole) + 2
    else:
        made.clients[place] = whole[:cut] + more + whole[cut:]
        number = cut + at
    return f"jbench: bad script\n  client {place + 1} operation {number}: {why}\n"


KINDS = ("too many credits", "too few credits", "no block", "a start in a handle", "a wait in a handle", "a write outside", "a stop outside",
         "a second wait", "an open end", "another operation", "too many bytes", "odd digits", "no whole number")


def ended(program, script, folder):
    """What the program prints of a script, what it says of a refusal, and its exit status."""
    path = Path(folder) / "script.json"
    path.write_text(json.dumps(script))
    done = subprocess.run([program, "threads", path], capture_output=True, text=True, timeout=600, check=False)
    return done.stdout, done.stderr, done.returncode


def check(program, seed, folder):
    """Runs the script of a seed. The answer is what it was, or nothing where the program says something else."""
    draw = random.Random(seed)
    made = RandomClients(draw)
    kind = KINDS[seed // 5 % len(KINDS)] if seed % 5 == 0 else None
    wanted = ("", spoiled(draw, made, kind), 1) if kind else (made.wanted(), "", 0)
    script = made.text()
    found = ended(program, script, folder)
    if found == wanted:
        return kind or "good"
    print(f"seed {seed}\n{json.dumps(script)}\nwanted: {wanted}\nfound: {found}")
    return None


def main():
    words = sys.argv[1:]
    program = TOP / "jbench"
    if "--program" in words:
        at = words.index("--program")
        program = Path(words[at + 1]).resolve()
        del words[at:at + 2]
    else:
        subprocess.run([program, "build"], check=True)
    count, seed = (int(word) for word in (words + ["1000", "1"][len(words):])[:2])
    kinds = Counter()
    with tempfile.TemporaryDirectory() as folder:
        for number in range(seed, seed + count):
            kind = check(program, number, folder)
            if kind is None:
                return 1
            kinds[kind] += 1
    print(f"{count} scripts: " + ", ".join(f"{n} {kind}" for kind, n in sorted(kinds.items())))
    return 0


if __name__ == "__main__":
    sys.exit(main())
