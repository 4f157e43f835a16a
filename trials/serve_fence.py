#!/usr/bin/python3 -B
"""A second `jbench serve` takes over the disks of a first one that lives on, as on another machine: each has its own way to the disks,
its own devices and its own caches, so that no lock of one keeps the other off. The first server is cut off from the disks before the
second one starts; half of the time it sleeps meanwhile, and goes on later. The second one has to find what the first k of the changes
that were sent made, in their order, with k no earlier than any that the first ever said to be flushed; and then to keep its own in the
same way, after a kill too.

    serve_fence.py [--program PATH] [--rounds N] [--seed N] [--seconds S] [--kernel FOLDER] [--no-fence]

There are N rounds (default: 20) of S seconds of the requests of serve_killed.py at most (default: 0.6; with --kernel 4), for each server.
The disks are network disks (NBD), each machine's connection is an nbdkit of its own, and the first one's is ended. With --kernel they are
SCSI disks in a guest of serve_raid.py: the kernel's target shows them to two initiators, and the second one preempts the first one's
reservation (`sg_persist`). With --no-fence nobody cuts the first one off: that is what may not be done, and rounds that are not whole are
what it shows. prefix.py judges, and is itself tried first. It ends with status 1 if any is not whole.

It wants root, losetup, nbdkit, nbdfuse (libnbd-bin), /dev/fuse and Debian's python3-libnbd; with --kernel what serve_raid.py needs, and
sg3-utils. The program is `./jbench`, which is built first, or the one at PATH; files are made in /dev/shm.
"""
import argparse
import collections
import random
import shutil
import signal
import subprocess
import sys
import tempfile
import threading
import time
from pathlib import Path

from prefix import Changes, try_judge
from serve_devices import SHAPES, Refused, attach, detach, look, unmount
from serve_killed import Client
from serve_raid import Fault, Guest, guest_files
from served import Volume, add_program, capacity_of, read_all

MODULES = ["scsi_common", "scsi_mod", "sd_mod", "configfs", "target_core_mod", "target_core_file", "tcm_loop"]
PORTS = {10809: ("/dev/sda", "/dev/sdb"), 10810: ("/dev/sdc", "/dev/sdd")}
BYTES = {"log": 257 * 4096, "home": 1024 * 4096}


class Machine(Volume):
    """A volume as one machine has it: network disks over the files of another volume, and loop devices over them."""

    def __init__(self, volume, folder):
        self.program, self.block, self.said = volume.program, volume.block, Path(folder) / "said"
        Path(folder).mkdir()
        self.disks, self.shown, self.server, nodes = [], {}, None, []
        for file in (volume.log, volume.home):
            path, shown = Path(folder) / f"{file.name}.socket", Path(folder) / f"{file.name}.shown"
            shown.mkdir()
            self.disks.append(subprocess.Popen(["nbdkit", "--foreground", "--unix", path, "file", file], stderr=subprocess.DEVNULL))
            until(path.exists)
            words = ["nbdfuse", shown / "disk", "--unix", path]
            self.shown[shown] = subprocess.Popen(words, stdout=subprocess.DEVNULL, stderr=subprocess.DEVNULL)
            until((shown / "disk").exists)
            nodes.append(attach(shown / "disk"))
        self.log, self.home = nodes

    def look(self):
        """A client of a new server, and what it reads."""
        self.server, h, found = look(self)
        return h, found

    def fence(self):
        """From here on nothing of this machine reaches the files."""
        for disk in self.disks:
            disk.kill()
            disk.wait()

    def send(self, number):
        """A signal to the server."""
        if self.server:
            self.server.send_signal(number)
            if number == signal.SIGKILL:
                self.server.wait()

    def take_down(self):
        for node in (self.log, self.home):
            detach(node)
        unmount(self.shown)
        self.fence()


def until(it):
    end = time.time() + 20
    while not it():
        if time.time() > end:
            raise OSError("nbdkit or nbdfuse does not start")
        time.sleep(0.01)


class Sender(threading.Thread):
    """A client that sends requests until its server is gone, over a volume that held these bytes."""

    def __init__(self, h, held, block, draw):
        super().__init__(daemon=True)
        changes = Changes(held, block, capacity_of(h))
        self.client, self.depth = Client(h, changes, draw, collections.Counter()), draw.choice((1, 4, 16))

    def run(self):
        self.client.run(self.depth)


class Initiator:
    """A volume as one SCSI initiator has it, in a guest; it has a key, and so has the other one."""

    def __init__(self, guest, port, key, other):
        self.guest, self.port, self.nodes, self.key, self.other = guest, port, PORTS[port], key, other
        self.block = 4096

    def look(self):
        try:
            h = self.guest.connect(self.port)
            return h, read_all(h)
        except Fault as fault:
            raise Refused(str(fault)) from fault

    def reserve(self, words):
        """Registers the key, and then reserves with these words: only those write whose keys are registered."""
        for node in self.nodes:
            self.guest.do(f"sg_persist -n {node} -k >/dev/null; sg_persist -n --out --register-ignore --param-sark={self.key} {node}")
            self.guest.do(f"sg_persist -n --out {words} --param-rk={self.key} --prout-type=5 {node}")

    def fence(self):
        """Nothing of this initiator is written from here on: the other one preempts it."""
        self.other.reserve(f"--preempt --param-sark={self.key}")

    def send(self, number):
        self.guest.do(f"for it in $(pidof jbench); do ! grep -q {self.nodes[0]} /proc/$it/cmdline || kill -{int(number)} $it; done")
        if number == signal.SIGKILL:
            self.guest.do(f"while grep -q {self.nodes[0]} /proc/[0-9]*/cmdline; do sleep 0.1; done")


def scsi_guest(program, kernel, folder):
    """A guest with two disks, each of which two initiators have."""
    programs = {"jbench": program, "sg_persist": shutil.which("sg_persist")}
    image, packed = guest_files(kernel, MODULES, programs, PORTS)
    memory = Path(folder) / "memory"
    memory.write_bytes(packed)
    guest = Guest(image, memory, folder, [], PORTS)
    target = "/sys/kernel/config/target"
    guest.do("mount -t configfs config /sys/kernel/config && mkdir -p /var/target/pr")
    for number, (area, size) in enumerate(BYTES.items()):
        core = f"{target}/core/fileio_{number}/{area}"
        guest.do(f"head -c {size} /dev/zero >/{area} && mkdir -p {core}")
        guest.do(f"echo fd_dev_name=/{area},fd_dev_size={size} >{core}/control && echo 1 >{core}/enable")
        guest.do(f"echo {area} >{core}/wwn/vpd_unit_serial")
    for number in (1, 2):
        group = f"{target}/loopback/naa.500140500000000{number}/tpgt_1"
        guest.do(f"mkdir -p {group} && echo naa.600140500000000{number} >{group}/nexus")
        for lun, area in enumerate(BYTES):
            guest.do(f"mkdir -p {group}/lun/lun_{lun} && ln -s {target}/core/fileio_{lun}/{area} {group}/lun/lun_{lun}/{area}")
    guest.do("until [ -b /dev/sdd ]; do sleep 0.1; done")
    return guest


def two_initiators(guest):
    """A new volume, and its initiators, of which the first one has the reservation."""
    guest.do("jbench format /dev/sda /dev/sdb --block 4096 --length 257")
    first, second = Initiator(guest, 10809, 1, None), Initiator(guest, 10810, 2, None)
    first.other = second
    first.reserve("--reserve")
    return [first, second]


def one_round(machines, draw, seconds, fences, cases):
    """What the second server finds, and what it keeps."""
    first, second = machines
    h, held = first.look()
    sender = Sender(h, held, first.block, random.Random(draw.random()))
    sender.start()
    time.sleep(draw.uniform(0.01, seconds))
    sleeps = draw.random() < 0.5
    if sleeps:
        first.send(signal.SIGSTOP)
        cases["first servers asleep"] += 1
    if fences:
        first.fence()
    try:
        g, found = second.look()
        others = Sender(g, found, first.block, random.Random(draw.random()))
        others.start()
        time.sleep(draw.uniform(0.01, seconds / 2))
        if sleeps:
            first.send(signal.SIGCONT)
        time.sleep(draw.uniform(0.01, seconds / 2))
        for machine in draw.sample(machines, 2):
            machine.send(signal.SIGKILL)
        sender.join(), others.join()
        g, kept = second.look()
        g.shutdown()
    except Refused:
        return "refused"
    verdicts = [sender.client.judge(found), others.client.judge(kept)]
    for name, it in (("first", sender), ("second", others)):
        cases.update({f"{what} by the {name}": n for what, n in it.client.cases.items() if what.startswith("handles")})
    return verdicts[0] if verdicts[0] != "whole" else verdicts[1]


def network_round(program, draw, seconds, fences, cases):
    """A round over network disks."""
    with tempfile.TemporaryDirectory(dir="/dev/shm") as folder:
        volume = Volume(program, folder, *draw.choice(SHAPES))
        machines = [Machine(volume, f"{folder}/{name}") for name in ("first", "second")]
        try:
            return one_round(machines, draw, seconds, fences, cases)
        finally:
            for machine in machines:
                machine.send(signal.SIGKILL)
                machine.take_down()


def scsi_round(program, kernel, draw, seconds, fences, cases):
    """A round over SCSI disks, in a guest of its own."""
    with tempfile.TemporaryDirectory(dir="/dev/shm") as folder:
        guest = scsi_guest(program, kernel, folder)
        try:
            return one_round(two_initiators(guest), draw, seconds, fences, cases)
        finally:
            guest.kill()


def main():
    a = argparse.ArgumentParser(description=__doc__, formatter_class=argparse.RawDescriptionHelpFormatter)
    add_program(a)
    a.add_argument("--rounds", type=int, default=20)
    a.add_argument("--seed", type=int, default=1)
    a.add_argument("--seconds", type=float)
    a.add_argument("--kernel", type=Path)
    a.add_argument("--no-fence", action="store_true")
    a = a.parse_args()
    try_judge(random.Random(a.seed), 2)
    draw, cases, verdicts = random.Random(a.seed), collections.Counter(), collections.Counter()
    words = (draw, a.seconds or (4 if a.kernel else 0.6), not a.no_fence, cases)
    try:
        for _ in range(a.rounds):
            verdicts[scsi_round(a.program, a.kernel, *words) if a.kernel else network_round(a.program, *words)] += 1
    except KeyboardInterrupt:
        print("interrupted")
    print(", ".join(f"{number} {what}" for what, number in sorted(cases.items())))
    print(f"{sum(verdicts.values())} rounds: " + ", ".join(f"{verdicts[what]} {what}" for what in ("whole", "torn", "lost", "refused")))
    return 0 if verdicts["whole"] == a.rounds else 1


if __name__ == "__main__":
    sys.exit(main())
