#!/usr/bin/python3 -B
"""Kills `jbench serve` while writes, zeros, trims, flushes and changes with FUA are on their way, starts it again, and looks: the volume
has to be what the first k of the changes that were sent made of it, in their order, with k no earlier than any that an answered flush or
FUA covers.

    serve_killed.py [--program PATH] [--rounds N] [--seed N] [--seconds S] [--folder FOLDER]

There are N rounds (default: 20), a few over each volume, and S seconds of changes in each at most (default: 0.6). Changes begin and end
anywhere and overlap; one in fifty may be longer than a transaction takes, of which the first handles may be there. A flush covers the
changes that were answered before it was sent, by libnbd's own account. In one round of five the client leaves instead, without saying so,
and the server ends by itself. Now and then the next server is killed too, while it opens the log. prefix.py judges, and is itself tried
first. A round that finds fewer changes than were covered is lost, and one that finds no first changes at all is torn. It ends with status 1
if there is any. An interrupt has it print what it counted.

A kill leaves what the system was given: it is no loss of power, which is what serve_power.py is for. When a kill comes is up to the
machine, so the same seed does not give the same kills. It wants Debian's python3-libnbd. The program is `./jbench`, which is built first,
or the one at PATH; the files are made in a folder of FOLDER (default: /dev/shm, a memory file system).
"""
import argparse
import collections
import errno
import os
import random
import socket
import sys
import tempfile
import threading
import time

import nbd

from prefix import SECTOR, Changes, stamped, try_judge
from served import Volume, add_program, capacity_of, read_all

SHAPES = [(1024, 129, 1024), (1024, 1025, 2048), (4096, 257, 512), (4096, 2049, 1024)]  # block size, log blocks, home blocks
INTERVALS = [(), ("--commit-interval", "0"), ("--commit-interval", "1")]
MOST = 200_000  # bytes of a change, of most


class Client:
    """Sends requests until its server is gone, and notes which changes are covered."""

    def __init__(self, h, changes, draw, cases):
        self.h, self.changes, self.draw, self.cases = h, changes, draw, cases
        self.block, self.size, self.capacity = changes.block, h.get_size(), changes.capacity
        self.answered, self.covered, self.refused, self.changed = 0, 0, 0, (0, self.size)
        self.flushes, self.fua = draw.choice(((0.12, 0.06), (0.01, 0), (0, 0.01), (0.002, 0.002)))  # how often

    def noted(self, what, number, covers, buffer=None):
        """What is called when a request is answered: a change up to `number`, which covers all up to `covers`."""

        def completed(error, _buffer=buffer):
            if error.value == 0:
                self.answered, self.covered = max(self.answered, number), max(self.covered, covers)
                self.cases[f"{what} answered"] += 1
            elif error.value != errno.ENOTCONN:
                self.cases["requests refused"] += 1
                self.refused += 1
            return 1

        return completed

    def length(self, at):
        most = min(self.capacity * self.block - at % self.block, MOST)
        if self.draw.random() < 0.02:
            most = 3 * self.capacity * self.block
        elif self.draw.random() < 0.7:
            most = min(most, 4 * self.block)
        count = self.draw.randrange(1, most + 1)
        if self.draw.random() < 0.5 and count > SECTOR:
            count -= count % SECTOR
        return min(count, self.size - at)

    def once(self):
        draw = self.draw
        if draw.random() < self.flushes:
            # what is answered by now is covered once this is answered
            self.h.aio_flush(self.noted("flushes", 0, self.answered))
            return
        # many begin within the change before, since only those that overlap show their order
        first, count = self.changed if draw.random() < 0.5 else (0, self.size)
        at, what = first + draw.randrange(count), draw.choices(("write", "zeros", "trim"), (8, 1, 1))[0]
        if draw.random() < 0.5:
            at = at // self.block * self.block
        n, flag = self.length(at), nbd.CMD_FLAG_FUA if draw.random() < self.fua else 0
        self.changed = (at, n)
        data = bytes(n) if what == "zeros" else stamped(at, n)
        number = self.changes.trim(at, n) if what == "trim" else self.changes.write(at, data)
        self.cases["changes sent"] += 1
        noted = lambda buffer=None: self.noted(("FUA " if flag else "") + what, number, number if flag else 0, buffer)
        if what == "trim":
            self.h.aio_trim(n, at, noted(), flag)
        elif what == "zeros":
            self.h.aio_zero(n, at, noted(), flag)
        else:
            buffer = nbd.Buffer.from_bytearray(bytearray(data))
            self.h.aio_pwrite(buffer, at, noted(buffer), flag)

    def run(self, depth):
        try:
            while True:
                self.once()
                while self.h.aio_in_flight() > depth:
                    self.h.poll(-1)
                if self.refused > 100:
                    time.sleep(0.001)  # a server that takes no more changes: each one that is sent has to be judged
        except nbd.Error:
            return

    def judge(self, found):
        """What the changes left: `whole`, `lost` or `torn`, which is counted, and told where it is not whole."""
        verdict, n = self.changes.verdict(found, self.covered)
        self.cases["handles sent"] += len(self.changes.pieces)
        self.cases["handles covered"] += self.covered
        self.cases["handles found"] += n
        self.cases["rounds that find more than was covered"] += n > self.covered
        if verdict != "whole":
            sent = f"{self.covered} covered and {len(self.changes.pieces)} sent"
            print(f"{verdict}: {n} found of {sent}; {self.changes.nearest}")
        return verdict


def one_round(volume, held, draw, seconds, cases):
    """Changes, a kill, and what is found then: `whole`, `lost` or `torn`, and the bytes of the volume."""
    server, h = volume.connect(*draw.choice(INTERVALS))
    if read_all(h) != held:
        return "changed since", held
    client = Client(h, Changes(held, volume.block, capacity_of(h)), draw, cases)
    line, leaves = socket.socket(fileno=os.dup(h.aio_get_fd())), draw.random() < 0.2
    killer = threading.Timer(draw.uniform(0.01, seconds), lambda: line.shutdown(socket.SHUT_RDWR) if leaves else server.kill())
    killer.start()
    client.run(draw.choice((1, 4, 16, 64)))
    killer.join()
    server.wait()
    line.close()
    cases["servers killed"] += not leaves
    cases["clients left"] += leaves
    if draw.random() < 0.3:
        server, ours = volume.serve()
        time.sleep(draw.uniform(0, 0.03))
        server.kill()
        server.wait()
        ours.close()
        cases["openings killed"] += 1
    server, h = volume.connect()
    found = read_all(h)
    h.shutdown()
    del h
    if server.wait() != 0:
        return "a server that ends badly", found
    return client.judge(found), found


def main():
    a = argparse.ArgumentParser(description=__doc__, formatter_class=argparse.RawDescriptionHelpFormatter)
    add_program(a)
    a.add_argument("--rounds", type=int, default=20)
    a.add_argument("--seed", type=int, default=1)
    a.add_argument("--seconds", type=float, default=0.6)
    a.add_argument("--folder", default="/dev/shm")
    a = a.parse_args()
    try_judge(random.Random(a.seed), 2)
    draw, cases, verdicts, left = random.Random(a.seed), collections.Counter(), collections.Counter(), a.rounds
    try:
        while left:
            with tempfile.TemporaryDirectory(dir=a.folder) as folder:
                volume = Volume(a.program, folder, *draw.choice(SHAPES))
                held, count = volume.home.read_bytes(), min(left, draw.randrange(1, 8))
                for _ in range(count):
                    verdict, held = one_round(volume, held, draw, a.seconds, cases)
                    verdicts[verdict] += 1
                left -= count
    except KeyboardInterrupt:
        print("interrupted")
    done = sum(verdicts.values())
    others = done - sum(verdicts[verdict] for verdict in ("whole", "torn", "lost"))
    print(", ".join(f"{number} {what}" for what, number in sorted(cases.items())))
    print(f"{done} rounds: {verdicts['whole']} whole, {verdicts['torn']} torn, {verdicts['lost']} lost, {others} others")
    return 0 if verdicts["whole"] == done else 1


if __name__ == "__main__":
    sys.exit(main())
