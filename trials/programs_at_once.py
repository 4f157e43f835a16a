#!/usr/bin/env -S python3 -B
"""Two and three `jbench` programs at once over one log, killed at random: no transaction that one of them was told of is lost.

usage: programs_at_once.py [--program PATH] [COUNT] [SEED]     so many times (default: 100 from seed 1)

Each time a log is made, and in a few rounds two or three programs are started together over its files: applies with or without
--stay, recoveries and dumps. Each apply writes blocks of its own, transaction by transaction, and waits for each. Some are killed
(SIGKILL) after a moment. Of each round:

- a program ends with 0, or by its kill, or it is refused with `jbench: file PATH` and exit status 1 and prints nothing more;
- they are not all refused.

After the last round `recover` ends well, and each block whose `wait` line was printed by any of them has its bytes; of each transaction,
of two blocks, both are there or neither. At the first difference all of it is printed, and nothing more is run (exit status 1). The program
is `./jbench`, which is built first, or the one at PATH. Run it by hand.
"""
import json
import signal
import subprocess
import sys
import time
from collections import Counter
from pathlib import Path

from runs import Difference, compare_all

SIZE, LENGTH, HOME, TRANSACTIONS = 1024, 33, 1024, 6


def bytes_of(program, transaction):
    """What both blocks of a transaction begin with."""
    return f"{program:06x}{transaction + 1:02x}"


def blocks_of(program, transaction):
    at = (program * TRANSACTIONS + transaction) * 2
    return at, at + 1


def script_of(program):
    """Transactions of two blocks that no other program writes, each with a wait."""
    operations = []
    for transaction in range(TRANSACTIONS):
        data = bytes_of(program, transaction)
        operations.append(["start", transaction, 2])
        operations += [["write", transaction, block, data] for block in blocks_of(program, transaction)]
        operations += [["stop", transaction], ["request", transaction], ["commit"], ["wait", transaction]]
    return json.dumps({"block": SIZE, "length": LENGTH, "home": HOME, "ops": operations})


class Programs:
    """The programs over one log, and what they were told."""

    def __init__(self, program, folder, draw):
        self.program, self.folder, self.draw = program, folder, draw
        self.log, self.home = str(folder / "log"), str(folder / "home")
        self.cases = Counter()

    def words(self, number):
        kind = self.draw.choice(("apply", "apply", "apply", "recover", "dump"))
        if kind == "apply":
            path = self.folder / f"script{number}"
            path.write_text(script_of(number))
            return ["apply", self.log, self.home, str(path), *self.draw.choice(([], ["--stay"]))]
        return [kind, self.log, self.home] if kind == "recover" else [kind, self.log]

    def round(self, numbers):
        """Starts these programs together; answers what each was, its exit status, its lines and its messages."""
        started = []
        for number in numbers:
            words = self.words(number)
            made = subprocess.Popen([str(self.program), *words], stdout=subprocess.PIPE, stderr=subprocess.PIPE, text=True)
            started.append((number, words, made))
        for _, _, made in started:
            if self.draw.random() < 0.3:
                time.sleep(self.draw.random() * self.draw.choice((0.001, 0.01, 0.05)))
                made.send_signal(signal.SIGKILL)
        ended = []
        for number, words, made in started:
            out, err = made.communicate()
            ended.append((number, words, made.returncode, out.splitlines(), err))
        return ended

    def judge(self, ended, acknowledged):
        for number, words, status, lines, err in ended:
            given = f"{words}: exit {status}, {lines}, {err!r}"
            if status == 1 and err.startswith("jbench: file ") and not lines:
                self.cases["refused"] += 1
            elif status not in (0, -signal.SIGKILL) or err:
                raise Difference(given)
            else:
                self.cases["ended" if status == 0 else "killed"] += 1
            if words[0] == "apply":
                acknowledged |= {(number, int(line.split()[1])) for line in lines if line.startswith("wait ") and " = refused" not in line}
        if all(status == 1 for _, _, status, _, _ in ended):
            raise Difference(f"all were refused: {ended}")

    def once(self):
        for path in self.folder.iterdir():
            path.unlink()
        done = subprocess.run([str(self.program), "format", self.log, self.home, "--block", str(SIZE), "--length", str(LENGTH), "--home", str(HOME)],
                              capture_output=True, text=True)
        assert done.returncode == 0, done
        acknowledged, told, next_number = set(), [], 0
        for _ in range(self.draw.choice((1, 2, 4))):
            count = self.draw.choice((2, 2, 3))
            ended = self.round(range(next_number, next_number + count))
            next_number += count
            told.append(ended)
            self.judge(ended, acknowledged)
        done = subprocess.run([str(self.program), "recover", self.log, self.home], capture_output=True, text=True)
        if done.returncode != 0:
            raise Difference(f"{told}\nrecover: {done}")
        home = Path(self.home).read_bytes()
        for number in range(next_number):
            for transaction in range(TRANSACTIONS):
                data = bytes.fromhex(bytes_of(number, transaction))
                there = [home[block * SIZE :][: len(data)] == data for block in blocks_of(number, transaction)]
                if len(set(there)) > 1 or ((number, transaction) in acknowledged and not all(there)):
                    raise Difference(f"{told}\ntransaction {transaction} of program {number}: {there}, acknowledged {(number, transaction) in acknowledged}")
        self.cases["times"] += 1
        self.cases["acknowledged transactions"] += len(acknowledged)


if __name__ == "__main__":
    sys.exit(compare_all(100, sys.argv[1:], Programs))
