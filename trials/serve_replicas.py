#!/usr/bin/python3 -B
"""`jbench serve` with LOG and HOME on three machines: QEMU's quorum driver writes each block to disks of all, and takes what two of them
agree on. One machine is killed in the middle, and requests go on. Then the server is killed, and a second one opens the same devices; or
its own machine is lost too, with the driver and all that was on its way, and a second one opens what one of the two machines has that
stayed. The volume has to be what the first k of the changes that were sent made of it, in their order, with k no earlier than any that an
answered flush or FUA covers.

    serve_replicas.py [--program PATH] [--rounds N] [--seed N] [--seconds S]

There are N rounds (default: 20), each over a new volume, of S seconds of the requests of serve_killed.py at most (default: 1). Machines are
nbdkit's servers on loopback, and the driver runs in a qemu-storage-daemon, whose disks nbdfuse and loop devices show to the server.
prefix.py judges, and is itself tried first. It ends with status 1 if any round is lost or torn.

It wants root, losetup, nbdkit, nbdfuse (libnbd-bin), qemu-utils (qemu-system-common has the daemon), /dev/fuse and Debian's
python3-libnbd. The program is `./jbench`, which is built first, or the one at PATH; files are made in /dev/shm.
"""
import argparse
import collections
import json
import random
import shutil
import subprocess
import sys
import tempfile
import threading
import time
from pathlib import Path

from prefix import Changes, try_judge
from serve_devices import SHAPES, Refused, attach, detach, look, unmount
from serve_fence import until
from serve_killed import Client
from serve_raid import free_port
from served import Volume, add_program, capacity_of

AREAS = ("log", "home")


class Machine:
    """The disks of one machine, each behind a port."""

    def __init__(self, folder):
        self.folder, self.ports, self.servers = Path(folder), {}, []

    def start(self):
        for area in AREAS:
            self.ports[area] = free_port()
            words = ["nbdkit", "--foreground", "--ipaddr", "127.0.0.1", "--port", str(self.ports[area]), "file", self.folder / area]
            self.servers.append(subprocess.Popen(words, stderr=subprocess.DEVNULL))
        time.sleep(0.2)

    def kill(self):
        for server in self.servers:
            server.kill()
        for server in self.servers:
            server.wait()
        self.servers = []


class Replicas(Volume):
    """A volume on the disks of three machines."""

    def __init__(self, program, folder, *shape):
        super().__init__(program, folder, *shape)
        self.folder, self.machines = Path(folder), []
        for number in range(3):
            place = self.folder / f"machine{number}"
            place.mkdir()
            for area in AREAS:
                shutil.copyfile(self.folder / area, place / area)
            self.machines.append(Machine(place))
            self.machines[-1].start()
        self.attach()

    def attach(self):
        """The driver over the machines, and two devices that show what it has."""
        path, words = self.folder / "socket", ["qemu-storage-daemon"]
        path.unlink(missing_ok=True)
        words += ["--nbd-server", f"addr.type=unix,addr.path={path}"]
        for area in AREAS:
            children = [f"{area}{number}" for number in range(3)]
            for child, machine in zip(children, self.machines):
                server = {"type": "inet", "host": "127.0.0.1", "port": str(machine.ports[area])}
                words += ["--blockdev", json.dumps({"driver": "nbd", "node-name": child, "server": server})]
            words += ["--blockdev", json.dumps({"driver": "quorum", "node-name": area, "vote-threshold": 2, "children": children})]
            words += ["--export", f"type=nbd,id=export-{area},node-name={area},name={area},writable=on"]
        self.driver = subprocess.Popen(words, stdout=subprocess.DEVNULL, stderr=subprocess.DEVNULL)
        until(path.exists)
        self.shown, nodes = {}, []
        for area in AREAS:
            shown = self.folder / f"{area}.shown"
            shown.mkdir(exist_ok=True)
            words = ["nbdfuse", str(shown / "disk"), f"nbd+unix:///{area}?socket={path}"]
            self.shown[shown] = subprocess.Popen(words, stdout=subprocess.DEVNULL, stderr=subprocess.DEVNULL)
            until((shown / "disk").exists)
            nodes.append(attach(shown / "disk"))
        self.log, self.home = nodes

    def detach(self):
        self.driver.kill()
        self.driver.wait()
        for node in (self.log, self.home):
            detach(node)
        unmount(self.shown)

    def take_down(self):
        self.detach()
        for machine in self.machines:
            machine.kill()

    def fail_over(self, stayed, draw):
        """The server's own machine is lost. All take what one has that stayed."""
        self.detach()
        chosen = draw.choice(stayed)
        for machine in self.machines:
            machine.kill()
            for area in AREAS:
                if machine is not chosen:
                    shutil.copyfile(chosen.folder / area, machine.folder / area)
            machine.start()
        self.attach()


def differing_blocks(machines, block):
    """In how many blocks two machines differ."""
    pairs = [[(machine.folder / area).read_bytes() for machine in machines] for area in AREAS]
    return sum(a[at : at + block] != b[at : at + block] for a, b in pairs for at in range(0, len(a), block))


def one_round(volume, draw, seconds, cases):
    """Requests, a machine that is killed, the end of the server, and what a second one finds."""
    server, h, held = look(volume)
    client = Client(h, Changes(held, volume.block, capacity_of(h)), draw, cases)
    sender = threading.Thread(target=client.run, args=(draw.choice((4, 16, 64)),), daemon=True)
    sender.start()
    time.sleep(draw.uniform(0.05, seconds))
    lost = draw.choice(volume.machines)
    stayed = [machine for machine in volume.machines if machine is not lost]
    lost.kill()
    before = len(client.changes.pieces)
    time.sleep(draw.uniform(0.1, seconds))
    if not sender.is_alive():
        return "a server that ended by itself"
    cases["handles sent after the machine was lost"] += len(client.changes.pieces) - before
    if client.refused:
        return f"{client.refused} requests refused"
    is_whole_machine = draw.random() < 0.5
    if is_whole_machine:
        volume.driver.kill()
        cases["servers lost with their machine"] += 1
    server.kill()
    server.wait()
    sender.join()
    if is_whole_machine:
        cases["blocks in which those that stayed differ"] += differing_blocks(stayed, volume.block)
        volume.fail_over(stayed, draw)
    server, h, found = look(volume)
    h.shutdown()
    del h
    if server.wait() != 0:
        return "a server that ends badly"
    return client.judge(found)


def main():
    a = argparse.ArgumentParser(description=__doc__, formatter_class=argparse.RawDescriptionHelpFormatter)
    add_program(a)
    a.add_argument("--rounds", type=int, default=20)
    a.add_argument("--seed", type=int, default=1)
    a.add_argument("--seconds", type=float, default=1)
    a = a.parse_args()
    try_judge(random.Random(a.seed), 2)
    draw, cases, verdicts = random.Random(a.seed), collections.Counter(), collections.Counter()
    try:
        for _ in range(a.rounds):
            with tempfile.TemporaryDirectory(dir="/dev/shm") as folder:
                volume = Replicas(a.program, folder, *draw.choice(SHAPES))
                try:
                    verdicts[one_round(volume, draw, a.seconds, cases)] += 1
                except Refused as refused:
                    verdicts[str(refused)] += 1
                finally:
                    volume.take_down()
    except KeyboardInterrupt:
        print("interrupted")
    print(", ".join(f"{number} {what}" for what, number in sorted(cases.items())))
    print(f"{sum(verdicts.values())} rounds: " + ", ".join(f"{number} {what}" for what, number in sorted(verdicts.items())))
    return 0 if verdicts["whole"] == a.rounds else 1


if __name__ == "__main__":
    sys.exit(main())
