#!/usr/bin/python3 -B
"""`jbench serve` in a Linux guest with LOG and HOME on an md RAID 1 of two disks each: a leg of each is lost in the middle of writes,
then the server or the whole guest is killed, and a second server recovers from the legs that stayed. The volume has to be what the
first k of the changes that were sent made of it, in their order, with k no earlier than any that an answered flush or FUA covers.

    serve_raid.py --kernel FOLDER [--power] [--program PATH] [--rounds N] [--seed N] [--seconds S]

QEMU emulates the guest in software. The client and its model stay outside, and reach the server over TCP. There are N rounds (default:
20) over one volume, of S seconds of the requests of serve_killed.py at most (default: 4). A leg is lost as `mdadm --fail` and `--remove`
do it, or its disk is pulled out of the running guest. The second server has the arrays as they run, or they are stopped and put together
from the legs that stayed alone, as they always are after a guest was killed. Now and then the second server is killed too, while it opens
the log. After the look the lost legs come back empty and are filled, and in the end both legs of each array have to be equal. prefix.py
judges, and is itself tried first. It ends with status 1 if any round is anything else than whole.

A kill leaves what the disks were given: it is no loss of power of theirs. With --power all legs are disks of disks.py, and each round ends
with a loss of power of the guest and all of them, at a drawn write, where each loses any of what it did not flush. Before it no leg may be
lost, or one of an array, also by a loss of its own power. Power may go again while the second server opens the log.

It needs Debian's qemu-system-x86, busybox-static, mdadm and python3-libnbd, and in FOLDER the unpacked kernel of serve_guest.py. The
program is `./jbench`, which is built first, or the one at PATH; files are made in /dev/shm.
"""
import argparse
import collections
import contextlib
import json
import os
import random
import re
import select
import shutil
import socket
import subprocess
import sys
import tempfile
import threading
import time
from pathlib import Path

import nbd

from disks import Disk, Supply
from prefix import Changes, try_judge
from serve_guest import MODULES, archive
from serve_killed import Client
from served import add_program, capacity_of, read_all

BLOCK, LENGTH, DISK = 4096, 257, 6 << 20
NETWORK = ["failover", "net_failover", "virtio_net"]
LEGS = [f"{area}{side}" for area in ("log", "home") for side in "ab"]
INIT = """#!/bin/busybox sh
export PATH=/bin MDADM_NO_UDEV=1
/bin/busybox mkdir -p /proc /sys /dev /run/mdadm
/bin/busybox --install -s /bin
mount -t proc proc /proc
mount -t sysfs sys /sys
mount -t devtmpfs dev /dev
for module in %s; do insmod /$module.ko || echo no $module; done
ip link set lo up
ip link set eth0 up
ip addr add 10.0.2.15/24 dev eth0
for it in /serve*; do nc -ll -p ${it#/serve} -e $it & done
exec </dev/ttyS0 >/dev/ttyS0 2>&1
stty -echo
echo guest: up
while IFS= read -r line; do eval "$line"; done
"""
SERVE = """#!/bin/sh
exec /bin/jbench serve --wait 20 %s %s 2>>/said
"""


class Fault(Exception):
    """Something is not as it has to be."""


def libraries(program):
    """The shared libraries of a program, by their paths."""
    told = subprocess.run(["ldd", str(program)], check=True, capture_output=True, text=True).stdout
    return set(re.findall(r"(/\S+\.so\S*)", told))


def guest_files(kernel, modules, programs, volumes):
    """The image of the kernel, and the bytes of the guest's memory file system, with these modules, programs, and ports with the nodes of
    the volume that is served there."""
    image = sorted((kernel / "boot").glob("vmlinuz-*"))[-1]
    place = kernel / "lib/modules" / image.name.removeprefix("vmlinuz-")
    names = [*MODULES, *NETWORK, *modules]
    files = [("init", 0o100755, (INIT % " ".join(names)).encode())]
    files += [(f"serve{port}", 0o100755, (SERVE % nodes).encode()) for port, nodes in volumes.items()]
    files += [(f"{name}.ko", 0o100644, next(place.rglob(f"{name}.ko")).read_bytes()) for name in names]
    packed = {f"bin/{name}": path for name, path in programs.items()}
    packed |= {path.removeprefix("/"): path for program in programs.values() for path in libraries(program)}
    packed["bin/busybox"] = shutil.which("busybox")
    folders = {str(folder) for path in packed for folder in Path(path).parents if str(folder) != "."}
    files = [(folder, 0o040755, b"") for folder in sorted(folders, key=len)] + files
    return image, archive(files + [(path, 0o100755, Path(source).read_bytes()) for path, source in packed.items()])


def free_port():
    with socket.socket() as it:
        it.bind(("127.0.0.1", 0))
        return it.getsockname()[1]


class Guest:
    """A running guest, whose shell does the commands that are written to its serial line."""

    def __init__(self, image, memory, folder, disks, ports):
        self.ports, self.count, self.folder = {port: free_port() for port in ports}, 0, folder
        words = ["qemu-system-x86_64", "-accel", "tcg", "-m", "256", "-display", "none", "-serial", "stdio", "-no-reboot"]
        words += ["-qmp", f"unix:{folder}/qmp,server=on,wait=off", "-kernel", str(image), "-initrd", str(memory)]
        words += ["-append", "console=ttyS0 quiet loglevel=1 panic=-1 no_timer_check"]
        forwards = "".join(f",hostfwd=tcp:127.0.0.1:{ours}-:{theirs}" for theirs, ours in self.ports.items())
        words += ["-nic", f"user,model=virtio-net-pci,restrict=on{forwards}"]
        for disk in disks:
            file = {"driver": "file", "filename": f"{folder}/{disk}"}
            if Path(f"{folder}/{disk}").is_socket():
                file = {"driver": "nbd", "server": {"type": "unix", "path": f"{folder}/{disk}"}}
            words += ["-blockdev", json.dumps({"driver": "raw", "node-name": disk, "file": file}), "-device", json.dumps(self.disk(disk))]
        self.process = subprocess.Popen(words, stdin=subprocess.PIPE, stdout=subprocess.PIPE, stderr=subprocess.STDOUT)
        try:
            self.until(rb"guest: up\r?\n", "its start", 300)
        except Fault:
            self.kill()
            raise

    def disk(self, name):
        return {"driver": "virtio-blk-pci", "id": f"disk-{name}", "drive": name, "serial": name}

    def until(self, pattern, what, seconds):
        """What is said up to the pattern, and the match."""
        told, end = b"", time.time() + seconds
        while not (found := re.search(pattern, told)):
            if not select.select([self.process.stdout], [], [], max(0, end - time.time()))[0]:
                raise Fault(f"no answer to {what}: {told[-900:].decode(errors='replace')}")
            if not (some := os.read(self.process.stdout.fileno(), 65536)):
                raise Fault(f"the guest ended at {what}: {told[-900:].decode(errors='replace')}")
            told += some
        return told[: found.start()].decode(errors="replace").replace("\r", ""), found

    def do(self, command, seconds=120):
        """What a command prints; it has to end well."""
        self.count += 1
        self.process.stdin.write(f"{{ {command}; }} 2>&1; echo guest: $? of {self.count}\n".encode())
        self.process.stdin.flush()
        told, found = self.until(rb"guest: (\d+) of %d\r?\n" % self.count, command, seconds)
        if found[1] != b"0":
            raise Fault(f"{command} ends with {found[1].decode()}: {told}")
        return told

    def ask(self, command, **words):
        """A request to QEMU itself."""
        with socket.socket(socket.AF_UNIX) as it:
            it.connect(f"{self.folder}/qmp")
            said = it.makefile("rw")
            said.readline()
            for one in ({"execute": "qmp_capabilities"}, {"execute": command, "arguments": words}):
                said.write(json.dumps(one) + "\n")
                said.flush()
                while "event" in (answer := json.loads(said.readline())):
                    pass
                if "error" in answer:
                    raise Fault(f"{command}: {answer}")

    def node(self, disk):
        """The node of a disk in the guest; nothing where it isn't there."""
        command = 'for it in /sys/block/vd*; do [ "$(cat $it/serial 2>/dev/null)" != %s ] || echo /dev/${it##*/}; done'
        return self.do(command % disk).strip()

    def connect(self, port=10809):
        """A server, and libnbd connected to it."""
        h = nbd.NBD()
        h.set_full_info(True)
        try:
            h.connect_tcp("127.0.0.1", str(self.ports[port]))
        except nbd.Error as error:
            raise Fault(f"refused: {error}, {self.do('cat /said')}") from error
        return h

    def kill(self):
        self.process.kill()
        self.process.wait()


class Disks:
    """The legs, as disks that lose power with the guest."""

    def __init__(self, folder):
        self.supply = Supply()
        self.disks = [Disk(f"{folder}/{leg}", bytes(DISK), BLOCK, self.supply) for leg in LEGS]

    def cut(self, leg):
        """A leg loses power alone: its array finds that it fails."""
        dead = Supply()
        dead.cut()
        self.disks[LEGS.index(leg)].supply = dead

    def lose(self, guest, draw, cases, writes=200):
        """Power is lost at one of so many next writes; the guest lives on for a moment."""
        self.supply.cut_after(draw.randrange(1, writes))
        self.supply.is_cut.wait(2)
        self.supply.cut()
        time.sleep(draw.choice((0, 0, 0.2)))
        guest.kill()
        for disk in self.disks:
            disk.supply = self.supply
        choices = sum(disk.lose(draw) for disk in self.disks)
        cases["losses of power"] += 1
        cases["losses with a choice"] += choices > 0
        cases["blocks there was a choice of"] += choices
        self.supply.restore()


class Arrays:
    """The two arrays, and which legs are theirs."""

    def __init__(self, guest):
        self.guest, self.stayed, self.unplugged = guest, list(LEGS), set()

    def create(self):
        for number, legs in enumerate((LEGS[:2], LEGS[2:])):
            nodes = " ".join(self.guest.node(leg) for leg in legs)
            words = "--metadata=1.2 --level=1 --raid-devices=2 --bitmap=none --data-offset=1M --assume-clean --run"
            self.guest.do(f"mdadm --create /dev/md{number} {words} {nodes}")

    def lose(self, leg, how):
        """A leg that is lost under its array."""
        self.stayed.remove(leg)
        if how == "without power":
            return
        if how == "failed":
            array, node = f"/dev/md{LEGS.index(leg) // 2}", self.guest.node(leg)
            self.guest.do(f"mdadm {array} --fail {node} && until mdadm {array} --remove {node}; do sleep 0.1; done")
        else:
            self.guest.ask("device_del", id=f"disk-{leg}")
            self.unplugged.add(leg)

    def assemble(self):
        """Both arrays of the legs that stayed alone."""
        for number in range(2):
            nodes = " ".join(self.guest.node(leg) for leg in self.stayed if LEGS.index(leg) // 2 == number)
            self.guest.do(f"mdadm --assemble --run /dev/md{number} {nodes}")

    def stop(self):
        self.guest.do("mdadm --stop /dev/md0 && mdadm --stop /dev/md1")

    def fill(self):
        """The lost legs come back, empty; both legs of each array are made equal."""
        for leg in [leg for leg in LEGS if leg not in self.stayed]:
            array = f"/dev/md{LEGS.index(leg) // 2}"
            if leg in self.unplugged:
                self.guest.do(f"mdadm {array} --fail detached --remove detached || true")
                self.guest.ask("device_add", **self.guest.disk(leg))
                self.unplugged.remove(leg)
            for _ in range(100):
                if node := self.guest.node(leg):
                    break
                time.sleep(0.2)
            self.guest.do(f"mdadm --zero-superblock {node}; mdadm {array} --add {node} && {{ mdadm --wait {array} || true; }}")
            self.stayed.append(leg)
        for number in range(2):
            self.guest.do(f"mdadm --wait /dev/md{number} || true")
            if "[UU]" not in self.guest.do(f"grep -A 1 ^md{number} /proc/mdstat"):
                raise Fault(f"array {number} is not whole: {self.guest.do('cat /proc/mdstat')}")


def one_round(start, guest, arrays, disks, held, draw, seconds, cases):
    """Requests, lost legs, an end, and what is found then: a verdict, the bytes of the volume, and the guest that runs."""
    h = guest.connect()
    if read_all(h) != held:
        return "changed since", held, guest
    client = Client(h, Changes(held, BLOCK, capacity_of(h)), draw, cases)
    sender = threading.Thread(target=client.run, args=(draw.choice((4, 16, 64)),), daemon=True)
    sender.start()
    ways = (("log",), ("home",), ("log", "home"), ("home", "log"))
    for area in draw.choice(ways + ((),) if disks else ways):
        time.sleep(draw.uniform(0, seconds / 2))
        how = draw.choice(("failed", "unplugged", "without power") if disks else ("failed", "unplugged"))
        leg = area + draw.choice("ab")
        arrays.lose(leg, how)
        if how == "without power":
            disks.cut(leg)
        cases[f"legs of {area} {how}"] += 1
    time.sleep(draw.uniform(0, seconds / 2))
    if not sender.is_alive():
        raise Fault(f"the server ended by itself: {guest.do('cat /said')}")
    killed = bool(disks) or draw.random() < 0.3
    if disks:
        disks.lose(guest, draw, cases)
    elif killed:
        guest.kill()
    else:
        guest.do("killall -9 jbench; true")
    sender.join()
    if killed:
        arrays.guest = guest = start()
        arrays.unplugged.clear()
        cases["guests killed"] += not disks
    else:
        cases["servers killed"] += 1
    if killed or draw.random() < 0.5:
        if not killed:
            guest.do("until ! pidof jbench; do sleep 0.1; done")
            arrays.stop()
        arrays.assemble()
        cases["arrays put together from the legs that stayed"] += 1
    if draw.random() < 0.3:
        with contextlib.closing(socket.create_connection(("127.0.0.1", guest.ports[10809]))):
            if disks:
                disks.lose(guest, draw, cases, 30)
            else:
                time.sleep(draw.uniform(0, 0.5))
                guest.do("killall -9 jbench; until ! pidof jbench; do sleep 0.1; done")
        if disks:
            arrays.guest = guest = start()
            arrays.assemble()
        cases["openings cut" if disks else "openings killed"] += 1
    h = guest.connect()
    found = read_all(h)
    verdict = client.judge(found)
    h.shutdown()
    guest.do("until ! pidof jbench; do sleep 0.1; done")
    arrays.fill()
    return verdict, found, guest


def main():
    a = argparse.ArgumentParser(description=__doc__, formatter_class=argparse.RawDescriptionHelpFormatter)
    add_program(a)
    a.add_argument("--kernel", type=Path, required=True)
    a.add_argument("--power", action="store_true")
    a.add_argument("--rounds", type=int, default=20)
    a.add_argument("--seed", type=int, default=1)
    a.add_argument("--seconds", type=float, default=4)
    a = a.parse_args()
    try_judge(random.Random(a.seed), 2)
    draw, cases, verdicts = random.Random(a.seed), collections.Counter(), collections.Counter()
    with tempfile.TemporaryDirectory(dir="/dev/shm") as folder:
        programs = {"mdadm": shutil.which("mdadm"), "jbench": a.program}
        image, packed = guest_files(a.kernel, ["md-mod", "raid1"], programs, {10809: ("/dev/md0", "/dev/md1")})
        memory = Path(folder) / "memory"
        memory.write_bytes(packed)
        disks = Disks(folder) if a.power else None
        for leg in () if disks else LEGS:
            with open(f"{folder}/{leg}", "wb") as file:
                file.truncate(DISK)

        def start():
            return Guest(image, memory, folder, LEGS, [10809])

        guest = start()
        try:
            arrays = Arrays(guest)
            arrays.create()
            guest.do(f"jbench format /dev/md0 /dev/md1 --block {BLOCK} --length {LENGTH}")
            h = guest.connect()
            held = read_all(h)
            h.shutdown()
            for k in range(a.rounds):
                verdict, held, guest = one_round(start, guest, arrays, disks, held, draw, a.seconds, cases)
                verdicts[verdict] += 1
                if verdict != "whole":
                    print(f"round {k}: {verdict}")
            arrays.stop()
            for number, area in enumerate(("log", "home")):
                legs = [guest.do(f"tail -c +{1 << 20} {guest.node(area + side)} | sha256sum") for side in "ab"]
                if legs[0] != legs[1]:
                    raise Fault(f"the legs of {area} differ")
        except (Fault, KeyboardInterrupt) as fault:
            print(f"round {sum(verdicts.values())}: {str(fault) or 'interrupted'}")
        finally:
            guest.kill()
    print(", ".join(f"{number} {what}" for what, number in sorted(cases.items())))
    print(f"{sum(verdicts.values())} rounds of {a.rounds}: {verdicts['whole']} whole, {verdicts['torn']} torn, {verdicts['lost']} lost")
    return 0 if verdicts["whole"] == a.rounds else 1


if __name__ == "__main__":
    sys.exit(main())
