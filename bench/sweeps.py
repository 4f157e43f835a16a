#!/usr/bin/env -S python3 -B
"""Times `jbench sweep` over scripts of many transactions, and tells its memory: a line for each script.

usage: sweeps.py [--program PATH] [--fail] [TRANSACTIONS ..]

TRANSACTIONS (default: 50 100 200) is how many transactions a script has. Each of them writes three blocks of home and is committed
by itself; after every fifth one comes a checkpoint round, so that the ring is used lap after lap. A line has the counts of the
sweep, the processor's seconds that it took, how many images it opened in one, and the greatest memory of the program in KiB, beside
that of `jbench run` of the same script, which opens one image. With --fail each call fails in turn, too. The program is that of
`./jbench`, which is built first, or the one at PATH. Run it by hand on a quiet machine: times are no test. 200 transactions take some
minutes.
"""
import json
import subprocess
import sys
import tempfile
from pathlib import Path

TOP = Path(__file__).resolve().parent.parent
BLOCKS, ROUND, HOME = 3, 5, 64


def script(transactions):
    """A script of so many transactions."""
    operations = []
    for i in range(1, transactions + 1):
        operations.append(["start", i, BLOCKS])
        for j in range(BLOCKS):
            operations.append(["write", i, (i * BLOCKS + j) % HOME, f"{i:04x}"])
        operations += [["stop", i], ["request", i], ["commit"]]
        if i % ROUND == 0:
            operations.append(["check"])
    return {"ops": operations + [["status", transactions]]}


def measured(words):
    """What a run of the program printed, the processor's seconds that it took, and its greatest memory in KiB."""
    child = "import os, resource, subprocess, sys\n" \
        "done = subprocess.run(sys.argv[1:], stdout=subprocess.PIPE, text=True)\n" \
        "used = resource.getrusage(resource.RUSAGE_CHILDREN)\n" \
        "print(used.ru_utime + used.ru_stime, used.ru_maxrss)\n" \
        "print(done.stdout, end='')\n" \
        "sys.exit(done.returncode)"
    done = subprocess.run([sys.executable, "-c", child, *words], stdout=subprocess.PIPE, text=True)
    if done.returncode != 0:
        sys.exit(f"sweeps: {' '.join(words)}: status {done.returncode}")
    used, *lines = done.stdout.splitlines()
    taken, memory = used.split()
    return lines, float(taken), int(memory)


def counts_of(line):
    """The counts of a line as `sweep writes=5 images=46 again=186 false=0`."""
    return {name: int(number) for name, _, number in (word.partition("=") for word in line.split()[1:])}


def main():
    words = sys.argv[1:]
    program = TOP / "crates/crash_bench/out/crash_bench"
    if words[:1] == ["--program"]:
        program, words = Path(words[1]).absolute(), words[2:]
    else:
        subprocess.run([TOP / "jbench", "build"], check=True)
    options = [word for word in words if word == "--fail"]
    with tempfile.TemporaryDirectory() as folder:
        path = Path(folder) / "script.json"
        for transactions in [int(word) for word in words if word != "--fail"] or [50, 100, 200]:
            path.write_text(json.dumps(script(transactions)))
            _, _, run_memory = measured([str(program), "run", str(path)])
            lines, taken, memory = measured([str(program), "sweep", str(path), *options])
            counts = counts_of(lines[0])
            images = counts["images"] + counts["again"]
            print(f"transactions={transactions} {'; '.join(lines)}: {taken:.1f} s, {images / taken:.0f} images a second, "
                  f"{memory} KiB (run: {run_memory} KiB)", flush=True)


if __name__ == "__main__":
    main()
