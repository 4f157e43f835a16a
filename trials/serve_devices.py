#!/usr/bin/python3 -B
"""`jbench serve` with LOG and HOME on loop devices, killed or cut off from power while requests are on their way. A server is then
started over the same devices, and the volume has to be what the first k of the changes that were sent made of it, in their order, with k
no earlier than any that an answered flush or FUA covers.

    serve_devices.py [--program PATH] [--rounds N] [--seed N] [--seconds S] [--folder FOLDER]

There are N rounds (default: 200), five over each volume, of S seconds of the requests of serve_killed.py at most (default: 0.6). Every
other volume is only killed. Behind the devices of the others stand disks of disks.py, which nbdfuse shows as files: they keep each write
in a cache until a flush. Power is lost at a drawn write to them, by both at once. Each later request fails, so a server lives on
for a moment over failing devices. Then each block of a disk is drawn by itself: as it was flushed, or as one of the writes since. Some
servers are killed before, and power is lost while the next one opens the log. Other openings are cut too; and what a server has read
after its opening, or left at its end, has to outlast one more loss. prefix.py judges, and is itself tried first. It ends with status 1 if
any round is lost or torn. An interrupt has it print what it counted.

It wants root, losetup, Debian's python3-libnbd, and for losses of power nbdfuse (libnbd-bin) and /dev/fuse; without these two it says so,
and only kills. The program is `./jbench`, which is built first, or the one at PATH; files are made in a folder of FOLDER (default:
/dev/shm, a memory file system).
"""
import argparse
import collections
import contextlib
import os
import random
import re
import shutil
import stat
import subprocess
import sys
import tempfile
import threading
import time
from pathlib import Path

import nbd

from disks import Disk, Supply
from prefix import Changes, try_judge
from serve_killed import Client
from served import Volume, add_program, capacity_of, read_all

SHAPES = [(1024, 129, 400), (1024, 1025, 1024), (4096, 65, 128), (4096, 257, 512)]  # block size, log blocks, home blocks


def system(*words):
    return subprocess.run([str(word) for word in words], check=True, capture_output=True, text=True).stdout.strip()


def attach(file):
    """A new loop device over a file."""
    node = system("losetup", "--find", "--show", file)
    if not os.path.exists(node):
        os.mknod(node, stat.S_IFBLK | 0o600, os.makedev(7, int(re.sub(r"\D", "", node))))
    return Path(node)


def detach(node):
    with contextlib.suppress(subprocess.CalledProcessError):
        system("losetup", "--detach", node)


def unmount(shown):
    """Takes down what these programs show in these folders."""
    for folder, program in shown.items():
        while f" {folder} " in Path("/proc/mounts").read_text():
            if subprocess.run(["umount", str(folder)], capture_output=True).returncode:
                time.sleep(0.02)
        program.wait()


class Devices(Volume):
    """A volume on two loop devices over its files."""

    def __init__(self, program, folder, *shape):
        super().__init__(program, folder, *shape)
        self.files = [self.log, self.home]
        self.attach()

    def attach(self):
        self.log, self.home = [attach(file) for file in self.files]

    def take_down(self):
        for node in (self.log, self.home):
            detach(node)


class Powered(Devices):
    """The same over disks that have a cache."""

    def __init__(self, program, folder, *shape):
        self.supply, self.disks, self.shown = Supply(), [], []
        super().__init__(program, folder, *shape)

    def attach(self):
        if not self.disks:
            self.disks = [Disk(f"{file}.socket", file.read_bytes(), self.block, self.supply) for file in self.files]
        self.shown = {}  # folders, and the programs that show a file there
        for file in self.files:
            shown = Path(f"{file}.shown")
            shown.mkdir(exist_ok=True)
            self.shown[shown] = subprocess.Popen(["nbdfuse", str(shown / "disk"), "--unix", f"{file}.socket"], stderr=subprocess.DEVNULL)
        for shown in self.shown:
            end = time.time() + 20
            while not (shown / "disk").exists():
                if time.time() > end:
                    raise OSError("nbdfuse shows no file")
                time.sleep(0.01)
        self.log, self.home = [attach(shown / "disk") for shown in self.shown]

    def take_down(self):
        super().take_down()
        unmount(self.shown)

    def lose(self, draw, cases):
        """A loss of power: devices and what shows them go, and come back over what is left."""
        self.supply.cut()
        self.take_down()
        choices = sum(disk.lose(draw) for disk in self.disks)
        cases["losses of power"] += 1
        cases["losses with a choice"] += choices > 0
        cases["blocks there was a choice of"] += choices
        self.supply.restore()
        self.attach()


def end_client(volume, server, client, draw, seconds, cut):
    """Requests until the server is killed, or the power goes and then the server is killed."""

    def end():
        if cut:
            volume.supply.is_cut.wait(seconds)
            volume.supply.cut()
            time.sleep(draw.choice((0, 0, 0.02, 0.1)))
        server.kill()

    if cut:
        volume.supply.cut_after(draw.randrange(1, draw.choice((20, 200, 2000))))
    ender = threading.Timer(0 if cut else draw.uniform(0.01, seconds), end)
    ender.start()
    client.run(draw.choice((1, 4, 16, 64)))
    ender.join()
    server.wait()


def end_opening(volume, draw, cut, cases):
    """A server that is killed, or loses power, while it opens the log or has just done so."""
    if cut:
        volume.supply.cut_after(draw.randrange(1, 60))
    server, ours = volume.serve()
    if cut:
        volume.supply.is_cut.wait(draw.uniform(0, 0.1))
        volume.supply.cut()
    else:
        time.sleep(draw.uniform(0, 0.03))
    server.kill()
    server.wait()
    ours.close()
    cases["openings without power" if cut else "openings killed"] += 1


class Refused(Exception):
    """A server that serves nobody."""


def look(volume):
    """A server, its client, and what it reads."""
    try:
        server, h = volume.connect()
        return server, h, read_all(h)
    except nbd.Error as error:
        raise Refused(f"refused: {volume.said.read_text().splitlines() or error}") from error


def one_round(volume, held, draw, seconds, cases):
    """Requests, an end, and what is found then: a verdict, and the bytes of the volume."""
    power = isinstance(volume, Powered)
    server, h, found = look(volume)
    if found != held:
        return "changed since", held
    client = Client(h, Changes(held, volume.block, capacity_of(h)), draw, cases)
    cut = power and draw.random() < 0.7
    end_client(volume, server, client, draw, seconds, cut)
    cases["kills" if not cut else "ends by a loss of power"] += 1
    if cut:
        volume.lose(draw, cases)
    if power and not cut or draw.random() < 0.3:
        end_opening(volume, draw, power, cases)
        if power:
            volume.lose(draw, cases)
    server, h, found = look(volume)
    verdict = client.judge(found)
    if power and draw.random() < 0.5:
        volume.supply.cut()
        server.kill()
        server.wait()
        del h
        volume.lose(draw, cases)
        server, h, again = look(volume)
        cases["looks after an opening"] += 1
        if again != found:
            return "lost after an opening", again
    h.shutdown()
    del h
    if server.wait() != 0:
        return "a server that ends badly", found
    if power:
        volume.lose(draw, cases)
    return verdict, found


def some_rounds(kind, program, folder, draw, count, seconds, cases, verdicts):
    volume = kind(program, folder, *draw.choice(SHAPES))
    try:
        _, h, held = look(volume)
        h.shutdown()
        for _ in range(count):
            verdict, held = one_round(volume, held, draw, seconds, cases)
            verdicts[verdict] += 1
    except Refused as refused:
        verdicts[str(refused)] += 1
    finally:
        volume.take_down()


def main():
    a = argparse.ArgumentParser(description=__doc__, formatter_class=argparse.RawDescriptionHelpFormatter)
    add_program(a)
    a.add_argument("--rounds", type=int, default=200)
    a.add_argument("--seed", type=int, default=1)
    a.add_argument("--seconds", type=float, default=0.6)
    a.add_argument("--folder", default="/dev/shm")
    a = a.parse_args()
    try_judge(random.Random(a.seed), 2)
    draw, cases, verdicts, left = random.Random(a.seed), collections.Counter(), collections.Counter(), a.rounds
    kinds = [Devices, Powered]
    if not shutil.which("nbdfuse") or not os.path.exists("/dev/fuse"):
        print("no losses of power: nbdfuse or /dev/fuse is missing")
        kinds = [Devices]
    try:
        while left:
            kinds.append(kinds.pop(0))
            with tempfile.TemporaryDirectory(dir=a.folder) as folder:
                count = min(left, 5)
                some_rounds(kinds[-1], a.program, folder, draw, count, a.seconds, cases, verdicts)
                left -= count
    except KeyboardInterrupt:
        print("interrupted")
    done = sum(verdicts.values())
    others = done - sum(verdicts[verdict] for verdict in ("whole", "torn", "lost"))
    print(", ".join(f"{number} {what}" for what, number in sorted(cases.items())))
    print(f"{done} rounds: {verdicts['whole']} whole, {verdicts['torn']} torn, {verdicts['lost']} lost, {others} others")
    for verdict in verdicts.keys() - {"whole", "torn", "lost"}:
        print(f"{verdicts[verdict]}: {verdict}")
    return 0 if verdicts["whole"] == done else 1


if __name__ == "__main__":
    sys.exit(main())
