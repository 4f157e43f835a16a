#!/usr/bin/env -S python3 -B
"""Kills `jbench bench` over files at random, with one client or several in threads: what `recover` makes of what is left has to be what a
separate reading of the log says.

usage: killed_bench.py [--program PATH] [COUNT] [SEED]     so many logs (default: 100 from seed 1)

Logs, home areas, blocks of a transaction and the count of clients are drawn, and when the program is killed. The log that is left is read
by openings.py, which shares nothing with the journal: the line of `recover` and each byte of the home area have to be as it says. At the
first difference what was drawn is printed, and nothing more is run (exit status 1). The program is `./jbench`, which is built first, or
the one at PATH. Run it by hand: when a kill comes is up to the machine, so the same seed draws the same logs and not the same kills.
"""
import random
import subprocess
import sys
import tempfile
import time
from collections import Counter
from pathlib import Path

TOP = Path(__file__).resolve().parent.parent
sys.path.append(str(TOP / "models"))

from openings import opening


def blocks_of(path, size):
    held = path.read_bytes()
    return [held[at:at + size] for at in range(0, len(held), size)]


def killed(program, folder, draw):
    """Runs a bench over new files and kills it. The answer is what was drawn, and the size of a block."""
    size = draw.choice((1024, 1024, 2048, 4096))
    length, home = draw.choice((64, 257, 1025, 4097)), draw.choice((16, 500, 5000))
    copies, threads = draw.choice((1, 2, 3)), draw.choice((None, 1, 2, 4, 8))
    files = [folder / "log", folder / "home"]
    for path in files:
        path.unlink(missing_ok=True)
    made = [program, "format", *files, "--block", str(size), "--length", str(length), "--home", str(home)]
    subprocess.run(made, check=True, capture_output=True)
    words = [program, "bench", *files, "--seconds", "60", "--copies", str(copies)]
    words += ["--threads", str(threads)] if threads else []
    with subprocess.Popen(words, stdout=subprocess.PIPE, stderr=subprocess.PIPE) as bench:
        time.sleep(draw.uniform(0.01, 0.5))
        bench.kill()
    return f"block={size} length={length} home={home} copies={copies} threads={threads}", size


def check(program, folder, draw):
    """Kills a bench, and recovers what is left. The answer is the line of the recovery, or nothing where something differs."""
    given, size = killed(program, folder, draw)
    log, home = blocks_of(folder / "log", size), blocks_of(folder / "home", size)
    line, written, _, _ = opening(log, len(home))
    for number, block in written.items():
        home[number] = block
    done = subprocess.run([program, "recover", folder / "log", folder / "home"], capture_output=True, text=True, check=False)
    found = blocks_of(folder / "home", size)
    if (done.stdout, done.stderr, done.returncode) == (f"{line}\n", "", 0) and found == home:
        return line
    others = [number for number, block in enumerate(found) if block != home[number]]
    print(f"{given}\nwanted: {line}\nfound: {done.stdout}{done.stderr}blocks that differ: {others}")
    return None


def main():
    words = sys.argv[1:]
    program = TOP / "jbench"
    if words[:1] == ["--program"]:
        program, words = Path(words[1]).resolve(), words[2:]
    else:
        subprocess.run([program, "build"], check=True)
    count, seed = (int(word) for word in (words + ["100", "1"][len(words):])[:2])
    kinds, transactions = Counter(), 0
    with tempfile.TemporaryDirectory(dir="/dev/shm") as folder:
        for number in range(seed, seed + count):
            line = check(program, Path(folder), random.Random(number))
            if line is None:
                print(f"seed {number}")
                return 1
            kinds[line.split()[0]] += 1
            transactions += int(line.partition("transactions=")[2] or 0)
    print(f"{count} logs: " + ", ".join(f"{n} {kind}" for kind, n in sorted(kinds.items())) + f", {transactions} transactions brought home")
    return 0


if __name__ == "__main__":
    sys.exit(main())
