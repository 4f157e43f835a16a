#!/usr/bin/env -S python3 -B
"""Times runs of scripts that revoke blocks and write directly: whether the time grows with their count alone.

usage: revokes.py [--program PATH] [ROUNDS]

Three tables, each a line for each size, with the median of ROUNDS runs (default: 5) of `jbench run`, in milliseconds of the
processor:

- one transaction of k revokes, beside the same script with none of them: microseconds a revoke;
- transactions of 100 revokes each, so many in all, with a commit and a checkpoint each: microseconds a revoke;
- direct writes after so many committed transactions, each of which revokes a block, beside the same script with no direct write:
  microseconds a direct write.

Where the last column of a table is about the same on all of its lines, the time is in proportion. A run is the whole life of its log:
the script is read, the operations are done, the image is dumped, opened and judged. The program is `./jbench`, which is built first,
or the one at PATH. Run it by hand on a quiet machine: times are no test.
"""
import json
import os
import resource
import statistics
import subprocess
import sys
import tempfile
from pathlib import Path

TOP = Path(__file__).resolve().parent.parent
DIRECTS = 20_000


def script(ops, length, home):
    return {"ops": ops, "length": length, "home": home}


def one_transaction(revokes):
    """One handle that has credits for so many entries, and revokes so many blocks; 0 revokes: it only starts and stops."""

    def of(made):
        ops = [["start", 1, revokes]] + [["revoke", 1, block] for block in range(made)] + [["stop", 1], ["request", 1], ["commit"]]
        return script(ops, 5 * revokes + 64, revokes)

    return of


def many_transactions(revokes):
    ops = []
    for first in range(0, revokes, 100):
        ops += [["start", 1, 100]] + [["revoke", 1, block] for block in range(first, first + 100)] + [["stop", 1], ["request", 1]]
        ops += [["commit"]]
        ops += [["check"]] if first % 1000 == 900 else []
    return script(ops, 1024, revokes)


def directs_behind(transactions):
    def of(directs):
        ops = []
        for number in range(transactions):
            ops += [["start", 1, 1], ["revoke", 1, number % 1000], ["stop", 1], ["request", 1], ["commit"]]
            ops += [["check"]] if number % 100 == 99 else []
        ops += [["direct", number % min(transactions, 1000), "5a"] for number in range(directs)]
        return script(ops, 1024, 1000)

    return of


def used():
    """The processor's milliseconds that the runs so far took."""
    usage = resource.getrusage(resource.RUSAGE_CHILDREN)
    return 1000 * (usage.ru_utime + usage.ru_stime)


def median(program, made, rounds):
    """Milliseconds that runs of a script take; the last line has to be that the verdict is ok, and nothing may be refused."""
    with tempfile.TemporaryDirectory() as folder:
        path = Path(folder) / "script.json"
        path.write_text(json.dumps(made))
        times = []
        for _ in range(rounds):
            before = used()
            done = subprocess.run([program, "run", path], capture_output=True, text=True)
            times.append(used() - before)
            if done.returncode or not done.stdout.endswith("verdict ok\n") or "refused" in done.stdout:
                sys.exit(f"the run did not end well: {done.stderr or done.stdout[-2000:]}")
        return statistics.median(times)


def main():
    words = sys.argv[1:]
    program = TOP / "jbench"
    if words[:1] == ["--program"]:
        program, words = words[1], words[2:]
    else:
        subprocess.run([program, "build"], check=True)
    if len(words) > 1 or not all(word.isdigit() for word in words):
        sys.exit(__doc__)
    rounds = int(words[0]) if words else 5
    print(f"processors: {os.cpu_count()}, load before: {os.getloadavg()[0]:.1f}")
    for revokes in (1_000, 10_000, 40_000):
        made = one_transaction(revokes)
        none, whole = median(program, made(0), rounds), median(program, made(revokes), rounds)
        print(f"one transaction, revokes={revokes} whole={whole:.1f}ms none={none:.1f}ms each={1000 * (whole - none) / revokes:.2f}us")
    for revokes in (9_000, 90_000):
        whole = median(program, many_transactions(revokes), rounds)
        print(f"transactions of 100, revokes={revokes} whole={whole:.1f}ms each={1000 * whole / revokes:.2f}us")
    for transactions in (100, 1_000, 10_000):
        made = directs_behind(transactions)
        none, whole = median(program, made(0), rounds), median(program, made(DIRECTS), rounds)
        each = 1000 * (whole - none) / DIRECTS
        print(f"direct writes={DIRECTS}, transactions={transactions} whole={whole:.1f}ms none={none:.1f}ms each={each:.2f}us")


if __name__ == "__main__":
    main()
