#!/usr/bin/python3 -B
"""A Linux guest with an ext4 file system on a volume that `jbench serve` serves, killed together with the server at random: each time the
file system has to be sound but for its own journal, with each file that was synced, and no page that was written in place torn.

    serve_guest.py --kernel FOLDER [--power] [--database] [--no-barriers] [--nbdkit] [--program PATH] [--rounds N] [--seed N] [--seconds S]

QEMU emulates the guest in software (`-accel tcg`), and reaches the server through a socket of the file system, each connection of which is
the standard input and output of a server. The guest is busybox alone: it mounts the volume, and then, S seconds at most (default: 8),
writes one file after the other and syncs it, removes old files, and writes pages of 16 KiB, each by one direct write over an older one in a
file that was laid out before. It says on its serial line what it has synced. A relay before the server counts how many of these pages came
in one request, and how many were cut. There are N rounds (default: 20) over one volume, which each next guest mounts as it was left. After
each, copies of log and home area are recovered by `recover`; `e2fsck -p` may replay the journal of the file system and release orphans, no
more; then `e2fsck -fn` has to find nothing, each synced file has to be there with its bytes, and each page has to be the one of one write,
which is no earlier than the last one that was synced. It ends with status 1 at the first fault.

With --power log and home area are two disks of the guest (virtio), the server runs in it, and the file system lies on /dev/nbd0, the
kernel's own client of the server. The disks are those of disks.py. They lose power with the guest, at a drawn write; in one round of four
soon after the guest's start, so while its server opens the log, or while the file system is mounted.

With --database the guest runs transactions of SQLite instead, with `synchronous = FULL` and a journal mode that is drawn. What they left
has to pass `PRAGMA integrity_check` and to be what the first of them made, up to the last one that the guest told (in mode `delete` up to
the one before). With --no-barriers the file system of such a guest is mounted with `barrier=0`, so that no flush may reach the device: the
relay looks. Then only those have to be there that the guest before had left: how many of the last ones are lost is counted. Both tell how
many transactions were made in how many seconds, by mode.

With --nbdkit nbdkit's file plugin is such a guest's server in place of `jbench`, over the disk of the home area alone, which the guest
syncs every 5 seconds, as often as `jbench` commits. Each round has a new file system, and all rounds with faults are told.

A kill leaves what the system was given: it is no loss of power. It needs Debian's qemu-system-x86, busybox-static and e2fsprogs, for
databases sqlite3, for losses of power nbd-client, and nbdkit where it serves; and in FOLDER an unpacked kernel:

    apt-get download linux-image-6.1.0-57-cloud-amd64 && dpkg -x linux-image-*.deb FOLDER

(the package that linux-image-cloud-amd64 depends on; the kernel wants ext4 built in, as this one has it). The program is `./jbench`, which
is built first, or the one at PATH; files are made in a folder for temporary files.
"""
import argparse
import collections
import contextlib
import functools
import gzip
import random
import re
import shutil
import socket
import sqlite3
import struct
import subprocess
import sys
import tempfile
import threading
import time
from pathlib import Path

from disks import Disk, Supply
from served import Listener, Volume, add_program

MODULES = ["virtio_ring", "virtio", "virtio_pci_legacy_dev", "virtio_pci_modern_dev", "virtio_pci", "virtio_blk"]
BLOCK, LENGTH, HOME = 4096, 2048, 16384
PLUGIN = "/usr/lib/x86_64-linux-gnu/nbdkit/plugins/nbdkit-file-plugin.so"
KEPT, PAGES, PAGE = 100, 64, 16384  # files that are kept, pages, bytes of a page
INIT = """#!/bin/busybox sh
export PATH=/bin
/bin/busybox mkdir -p /proc /sys /dev /mnt
/bin/busybox --install -s /bin
stop() { while true; do sleep 1; done; } # the device failed, since its server is gone
mount -t proc proc /proc
mount -t sysfs sys /sys
mount -t devtmpfs dev /dev
echo guest: up
until [ "$begin$end" = nowgo ]; do read -r begin n mode end </dev/ttyS0; done
echo guest: goes
for module in %(modules)s; do insmod /$module.ko || echo guest: no $module; done
%(device)s
mount -t ext4 -o barrier=%(barrier)d $device /mnt || { echo guest: no file system; poweroff -f; }
"""
OUTSIDE = "device=/dev/vda; until [ -b $device ]; do sleep 0.1; done"
INSIDE = """device=/dev/nbd0
until [ -b /dev/vda -a -b /dev/vdb ]; do sleep 0.1; done
ip link set lo up
/serve &
until nbd-client -N '' 127.0.0.1 10809 $device >/dev/null 2>&1; do sleep 0.3; done"""
JBENCH = """#!/bin/sh
[ -z "$1" ] || exec jbench serve /dev/vda /dev/vdb
nc -l -p 10809 -e /serve connected
"""
NBDKIT = """#!/bin/sh
while sleep 5; do sync /dev/vdb; done &
nbdkit -f -p 10809 /lib/nbdkit-file-plugin.so cache=none /dev/vdb
"""
FILES = """
if [ ! -e /mnt/laid ]; then
    head -c %(all)d /dev/zero >/mnt/pages && sync && touch /mnt/laid && sync
fi
echo guest: mounted
while true; do
    yes "line of file $n" | head -c $((n * 7919 %% 60000 + 1)) >/file
    dd if=/file of=/mnt/file$n bs=65536 conv=fsync 2>/dev/null || stop
    echo "guest: synced $n"
    rm -f /mnt/file$((n - %(kept)d))
    for k in 1 2 3; do
        yes "page of $((3 * n + k))" | head -c %(page)d >/page
        dd if=/page of=/mnt/pages bs=%(page)d seek=$(((3 * n + k) %% %(pages)d)) oflag=direct conv=notrunc 2>/dev/null || stop
    done
    sync /mnt/pages || stop
    echo "guest: pages $((3 * n + 3))"
    n=$((n + 1))
done
"""
DATABASE = """
begin() { echo "PRAGMA journal_mode = $mode;"; cat /begin.sql; }
{ begin; cat /next.sql; } | sqlite3 -bail /mnt/base
echo guest: mounted
{ begin; yes "$(cat /next.sql)"; } | sqlite3 -bail /mnt/base 2>/dev/null
stop
"""
MODES = ("delete", "truncate", "persist", "wal")
CELLS, TURNS, ADDED = 300, 7, 50  # rows that are changed in turn, how many turns, rows that are added and kept
BEGIN_SQL = f"""
PRAGMA synchronous = FULL;
BEGIN IMMEDIATE;
CREATE TABLE IF NOT EXISTS head(n INTEGER);
CREATE TABLE IF NOT EXISTS cells(k INTEGER PRIMARY KEY, n INTEGER, text TEXT);
CREATE TABLE IF NOT EXISTS added(n INTEGER PRIMARY KEY, text TEXT);
INSERT INTO cells SELECT value, 0, '' FROM generate_series(0, {CELLS - 1}) WHERE NOT EXISTS (SELECT * FROM head);
INSERT INTO head SELECT 0 WHERE NOT EXISTS (SELECT * FROM head);
COMMIT;
"""
NEXT_SQL = f"""
BEGIN IMMEDIATE;
UPDATE head SET n = n + 1;
UPDATE cells SET n = head.n, text = printf('%0*d', k % 200, head.n) FROM head WHERE k % {TURNS} = head.n % {TURNS};
INSERT INTO added SELECT n, printf('%05000d', n) FROM head;
DELETE FROM added WHERE n <= (SELECT n FROM head) - {ADDED};
COMMIT;
SELECT 'guest: committed ' || n FROM head;
"""


class Relay(Listener):
    """A listener that reads what the client says on its way to the server, and notes the writes that it asked for."""

    def __init__(self, path, words):
        super().__init__(path, words)
        self.writes = []  # of the last client: the first byte, and how many
        self.flushes = 0  # also writes with FUA
        self.is_down = False  # whether QEMU, which would connect again by itself, finds no server
        self.uris = [self.uri]

    def power_on(self):
        self.is_down = False

    def begin(self):
        """The file system is mounted, and its pages are laid out."""
        self.writes.clear()
        self.flushes = 0

    def end(self, guest, draw, cases):
        """Server and guest are killed."""
        order, self.is_down = draw.choice(["server", "guest"]), True
        if order == "guest":
            guest.process.kill()
        self.server.kill()
        time.sleep(draw.uniform(0, 0.2))
        guest.kill()
        self.server.wait()
        cases[f"{order} killed first"] += 1

    def run(self):
        while True:
            client, _ = self.socket.accept()
            if self.is_down:
                client.close()
                continue
            self.started += 1
            ours, theirs = socket.socketpair()
            with client, ours:
                with theirs:
                    self.server = subprocess.Popen(self.words, stdin=theirs, stdout=theirs, stderr=subprocess.DEVNULL)
                self.writes = []
                back = threading.Thread(target=copy, args=(ours, client))
                back.start()
                with contextlib.suppress(OSError, EOFError):
                    self.forth(client, ours)
                with contextlib.suppress(OSError):
                    ours.shutdown(socket.SHUT_WR)
                self.statuses.append(self.server.wait())
                back.join()

    def forth(self, client, server):
        def pass_on(count):
            data = bytearray()
            while len(data) < count:
                if not (some := client.recv(min(count - len(data), 1 << 20))):
                    raise EOFError
                data += some
            server.sendall(data)
            return data

        pass_on(4)
        option = None
        while option not in (1, 7):
            _, option, length = struct.unpack(">8sII", pass_on(16))
            pass_on(length)
        while True:
            _, flags, command, _, at, length = struct.unpack(">IHHQQI", pass_on(28))
            self.flushes += command == 3 or flags & 1
            if command == 1:
                self.writes.append((at, length))
                pass_on(length)


def copy(source, to):
    """Hands on bytes until there are no more."""
    with contextlib.suppress(OSError):
        while some := source.recv(1 << 20):
            to.sendall(some)
        to.shutdown(socket.SHUT_WR)


class Disks:
    """The disks of a guest that has the server in it: log and home area. They lose power with it."""

    def __init__(self, volume):
        self.supply, self.files, self.writes, self.flushes = Supply(), (volume.log, volume.home), [], 0
        self.disks = [Disk(f"{file}.socket", file.read_bytes(), BLOCK, self.supply) for file in self.files]
        self.uris = [f"nbd+unix:///?socket={file}.socket" for file in self.files]

    def __enter__(self):
        return self

    def __exit__(self, *_):
        for disk in self.disks:
            disk.socket.close()

    def set(self):
        """The disks get what is in the files."""
        for file, disk in zip(self.files, self.disks):
            disk.set(file.read_bytes())

    def power_on(self):
        self.supply.restore()

    def begin(self):
        pass

    def end(self, guest, draw, cases):
        """Power is lost at one of the next writes. The guest lives on for a moment, over disks that fail."""
        self.supply.cut_after(draw.randrange(1, 100))
        self.supply.is_cut.wait(6)  # a server commits after 5 seconds at the latest
        self.lose(guest, draw, cases)

    def lose(self, guest, draw, cases):
        self.supply.cut()
        time.sleep(draw.choice((0, 0, 0.2)))
        guest.kill()
        choices = sum(disk.lose(draw) for disk in self.disks)
        for file, disk in zip(self.files, self.disks):
            file.write_bytes(disk.flushed)
        cases["losses of power"] += 1
        cases["losses with a choice"] += choices > 0
        cases["blocks there was a choice of"] += choices


class Fault(Exception):
    """Something is not as it has to be."""


def archive(files):
    """A file system for the guest's memory: an archive of the form newc, with these names, modes and bytes."""
    made = bytearray()
    for number, (name, mode, data) in enumerate([*files, ("TRAILER!!!", 0, b"")], 1):
        words = [number, mode, 0, 0, 1, 0, len(data), 0, 0, 0, 0, len(name) + 1, 0]
        made += b"070701" + b"".join(b"%08X" % word for word in words) + name.encode() + b"\0"
        made += bytes(-len(made) % 4) + data
        made += bytes(-len(made) % 4)
    return gzip.compress(bytes(made), 1)


def program_files(programs):
    """These programs, by their names in the guest, with their libraries."""
    needed = {word for program in programs.values() for word in run("ldd", program, wanted=(0, 1)).split() if word.startswith("/")}
    packed = {path[1:]: path for path in needed} | programs
    folders = sorted({str(folder) for path in packed for folder in Path(path).parents if str(folder) != "."})
    return [(folder, 0o040755, b"") for folder in folders] + [(path, 0o100755, Path(file).read_bytes()) for path, file in packed.items()]


def guest_files(a):
    """The image of the kernel, and the archive."""
    images = sorted((a.kernel / "boot").glob("vmlinuz-*"))
    if not images:
        raise SystemExit(f"serve_guest.py: {a.kernel} has no boot/vmlinuz-*")
    names = MODULES + ["nbd"] * a.power
    words = {"modules": " ".join(names), "all": PAGES * PAGE, "kept": KEPT, "page": PAGE, "pages": PAGES}
    words |= {"device": INSIDE if a.power else OUTSIDE, "barrier": not a.no_barriers}
    texts, programs = {"init": (INIT + (DATABASE if a.database else FILES)) % words}, {"bin/busybox": shutil.which("busybox")}
    if a.database:
        texts |= {"begin.sql": BEGIN_SQL, "next.sql": NEXT_SQL}
        programs |= {"bin/sqlite3": shutil.which("sqlite3")}
    if a.power:
        texts |= {"serve": NBDKIT if a.nbdkit else JBENCH}
        programs |= {"bin/nbd-client": shutil.which("nbd-client")}
        programs |= {"bin/nbdkit": shutil.which("nbdkit"), "lib/nbdkit-file-plugin.so": PLUGIN} if a.nbdkit else {"bin/jbench": a.program}
    files = program_files(programs) + [(name, 0o100755, text.encode()) for name, text in texts.items()]
    modules = a.kernel / "lib/modules" / images[-1].name.removeprefix("vmlinuz-")
    return images[-1], archive(files + [(f"{name}.ko", 0o100644, next(modules.rglob(f"{name}.ko")).read_bytes()) for name in names])


class Guest:
    """A running guest, and what it has said. It starts, or goes on as one that was kept."""

    def __init__(self, image, memory, uris, kept):
        words = ["qemu-system-x86_64", "-accel", "tcg", "-m", "256", "-display", "none", "-monitor", "none", "-serial", "stdio"]
        words += ["-no-reboot", "-net", "none", "-kernel", str(image), "-initrd", str(memory)]
        words += ["-append", "console=ttyS0 quiet panic=-1 no_timer_check"]
        for uri in uris:
            words += ["-drive", f"file={uri},format=raw,if=virtio,cache=none"]
        words += ["-incoming", f"exec:cat {kept}"] if kept.exists() else ["-qmp", f"unix:{kept}.qmp,server=on,wait=off"]
        self.process = subprocess.Popen(words, stdin=subprocess.PIPE, stdout=subprocess.PIPE, stderr=subprocess.STDOUT)
        self.said, self.up, self.goes, self.mounted = [], threading.Event(), threading.Event(), threading.Event()
        self.reader = threading.Thread(target=self.read)
        self.reader.start()

    def keep(self, kept):
        """The state of a guest that has started goes to a file: to start takes long."""
        try:
            if not self.up.wait(600):
                raise Fault("the guest does not start")
            with socket.socket(socket.AF_UNIX) as it:
                it.connect(f"{kept}.qmp")
                told = it.makefile("rw")
                uri = f"exec:cat >{kept}.part && mv {kept}.part {kept}"
                told.write('{"execute": "qmp_capabilities"}{"execute": "migrate", "arguments": {"uri": "%s"}}' % uri)
                while not kept.exists():
                    told.write('{"execute": "query-migrate"}')
                    told.flush()
                    line = told.readline()
                    if not line or '"failed"' in line or '"error"' in line:
                        raise Fault(f"the guest's state is not kept: {line}")
                    time.sleep(0.05)
        finally:
            self.kill()

    def go(self, first, mode):
        """From here on the guest works: with this number, and in this mode. What it is told before it goes on is lost."""
        self.mode = mode
        with contextlib.suppress(BrokenPipeError):
            while self.process.poll() is None and not self.goes.wait(0.5):
                self.process.stdin.write(f"now {first} {mode} go\n".encode())
                self.process.stdin.flush()

    def read(self):
        for line in self.process.stdout:
            if line.endswith(b"\n"):
                self.said.append(line.decode(errors="replace").strip())
                if re.search("guest: (mounted|no )", self.said[-1]):
                    self.mounted.set()
                if "guest: up" in self.said[-1]:
                    self.up.set()
                if "guest: goes" in self.said[-1]:
                    self.goes.set()
        self.mounted.set()

    def numbers(self, what):
        return [int(found[1]) for line in self.said if (found := re.search(rf"guest: {what} (\d+)$", line))]

    def kill(self):
        self.process.kill()
        self.process.wait()
        self.reader.join()


def file_bytes(n):
    size, line = n * 7919 % 60000 + 1, b"line of file %d\n" % n
    return (line * (size // len(line) + 1))[:size]


def page_bytes(number):
    line = b"page of %d\n" % number
    return (line * (PAGE // len(line) + 1))[:PAGE]


def run(*words, wanted=(0,)):
    done = subprocess.run([str(word) for word in words], capture_output=True, text=True)
    if done.returncode not in wanted:
        raise Fault(f"{words[0]} {words[1]} ends with {done.returncode}: {done.stdout[-2000:]}{done.stderr[-2000:]}")
    return done.stdout + done.stderr


def count_pages(home, writes, cases):
    """How many pages came in one request, and how many requests had a part of one: of requests that have no more than a page."""
    for line in run("debugfs", "-R", "ex /pages", home).splitlines():
        if found := re.match(r" *(\d+)/ *(\d+) +\d+/ *\d+ +(\d+) - +\d+ +(\d+) - +(\d+) ", line):
            if found[1] != found[2]:
                continue
            first, begin, end = (int(found[k]) * BLOCK for k in (3, 4, 5))
            for at, length in writes:
                if begin <= at <= end and length <= PAGE:
                    whole = length == PAGE and (at - begin + first) % PAGE == 0
                    cases["pages in one request" if whole else "requests with a part of a page"] += 1


def recovered(volume, folder, cases):
    """A copy of the home area, recovered if it has a log, and the files in it."""
    copies, left = [Path(folder) / "log.copy", Path(folder) / "home.copy"], Path(folder) / "left"
    shutil.copyfile(volume.log, copies[0]), shutil.copyfile(volume.home, copies[1])
    if volume.has_log:
        cases["recovered" if "recovered " in run(volume.program, "recover", *copies) else "clean"] += 1
    told = run("e2fsck", "-p", copies[1], wanted=(0, 1))
    for line in told.splitlines():
        if line and not re.search(r"recovering journal|[Oo]rphan|clean, |Setting (free|filetype)", line):
            raise Fault(f"e2fsck -p says {line}")
    run("e2fsck", "-fn", copies[1])
    shutil.rmtree(left, ignore_errors=True)
    left.mkdir()
    run("debugfs", "-R", f"rdump / {left}", copies[1])
    return copies[1], left


def check(left, synced, removed, pages, cases):
    """Looks for the synced files, and at the pages."""
    for n in synced - removed:
        if not (left / f"file{n}").exists() or (left / f"file{n}").read_bytes() != file_bytes(n):
            raise Fault(f"file {n} was synced, and is not there with its bytes")
        cases["synced files found"] += 1
    held = (left / "pages").read_bytes()
    for k in range(PAGES):
        page = held[k * PAGE : (k + 1) * PAGE]
        found = re.match(rb"page of (\d+)\n", page)
        number = int(found[1]) if found else 0
        if page != (page_bytes(number) if number else bytes(PAGE)) or number % PAGES not in (k, 0):
            raise Fault(f"page {k} is torn")
        if number < pages[k]:
            raise Fault(f"page {k} is of {number}, and {pages[k]} was synced")
        cases["pages found whole"] += 1
        cases["of these written"] += number > 0


def check_database(left, before, cases):
    """How many transactions are there, whole: the first ones, no fewer than before."""
    n = 0
    cases["journals of SQLite"] += any((left / f"base-{name}").exists() for name in ("journal", "wal"))
    with contextlib.closing(sqlite3.connect(left / "base")) as base:
        rows = lambda query: base.execute(query).fetchall()
        if (said := rows("PRAGMA integrity_check")) != [("ok",)]:
            raise Fault(f"integrity_check says {said}")
        if rows("SELECT * FROM sqlite_schema"):
            ((n,),) = rows("SELECT n FROM head")
            last = [max(0, n - (n - k) % TURNS) for k in range(CELLS)]
            cells = [(k, m, f"{m:0{k % 200}}" if m else "") for k, m in enumerate(last)]
            added = [(k, f"{k:05000}") for k in range(max(1, n - ADDED + 1), n + 1)]
            if (rows("SELECT * FROM cells ORDER BY k"), rows("SELECT * FROM added ORDER BY n")) != (cells, added):
                raise Fault(f"the database is not as the first {n} transactions made it")
    if n < before:
        raise Fault(f"{n} transactions are there, and {before} were before")
    return n


def one_round(at, files, first, draw, seconds, cases):
    """A guest that was killed with its server. With disks of its own power may also be lost while the server opens the log."""
    at.power_on()
    is_early = isinstance(at, Disks) and first > 1 and draw.random() < 0.25
    if is_early:
        at.supply.cut_after(draw.randrange(1, 60))
    kept = files[1].with_name("kept")
    if not kept.exists():
        Guest(*files, at.uris, kept).keep(kept)
    guest = Guest(*files, at.uris, kept)
    try:
        guest.go(first, draw.choice(MODES))
        if is_early:
            if not at.supply.is_cut.wait(300):
                raise Fault("the guest does not write:\n" + "\n".join(guest.said[-20:]))
            at.lose(guest, draw, cases)
            cases["losses soon after the start"] += 1
            return guest
        if not guest.mounted.wait(300) or not any("guest: mounted" in line for line in guest.said):
            raise Fault("the guest does not mount the file system:\n" + "\n".join(guest.said[-20:]))
        at.begin()
        begun, told = time.time(), guest.numbers("committed")
        time.sleep(draw.uniform(0, seconds))
        if told:
            cases[f"transactions in mode {guest.mode}"] += max(guest.numbers("committed")) - max(told)
            cases[f"seconds in mode {guest.mode}"] += time.time() - begun
        at.end(guest, draw, cases)
    finally:
        guest.kill()
    return guest


def round_of_files(synced, pages, volume, folder, at, files, first, draw, seconds, cases):
    """A round with the numbers of the synced files, and of each page. It ends with the number of the next guest's first file."""
    guest = one_round(at, files, first, draw, seconds, cases)
    synced.update(told := guest.numbers("synced"))
    for number in range(3 * first + 1, max(guest.numbers("pages"), default=0) + 1):
        pages[number % PAGES] = number
    last = max(told, default=first)
    home, left = recovered(volume, folder, cases)
    count_pages(home, at.writes, cases)
    check(left, synced, {n for n in synced if n <= last + 1 - KEPT}, pages, cases)
    return last + 2


def round_of_database(has_barriers, volume, folder, at, files, before, draw, seconds, cases):
    """A round after one that left so many transactions. It ends with their number."""
    guest = one_round(at, files, before, draw, seconds, cases)
    told = max(guest.numbers("committed"), default=before)
    n = check_database(recovered(volume, folder, cases)[1], before, cases)
    if not has_barriers and at.flushes:
        raise Fault(f"{at.flushes} flushes reached the device")
    # in this mode the folder is not synced, once the journal is removed
    if has_barriers and told - n > (guest.mode == "delete"):
        raise Fault(f"{n} transactions are there, and {told} were committed in mode {guest.mode}")
    cases["transactions told"] += told - before
    cases["transactions lost"] += max(0, told - n)
    cases["rounds that lost some"] += told > n
    return n


def made_anew(volume, at):
    """A new file system on the volume, whose server has no log; it has no transaction."""
    run("mke2fs", "-q", "-F", "-t", "ext4", "-b", str(BLOCK), volume.home)
    at.set()
    return 0


def main():
    a = argparse.ArgumentParser(description=__doc__, formatter_class=argparse.RawDescriptionHelpFormatter)
    add_program(a)
    a.add_argument("--kernel", type=Path, required=True)
    a.add_argument("--database", action="store_true")
    a.add_argument("--no-barriers", action="store_true")
    a.add_argument("--power", action="store_true")
    a.add_argument("--nbdkit", action="store_true")
    a.add_argument("--rounds", type=int, default=20)
    a.add_argument("--seed", type=int, default=1)
    a.add_argument("--seconds", type=float, default=8)
    a = a.parse_args()
    a.database, a.power = a.database or a.no_barriers or a.nbdkit, a.power or a.nbdkit
    draw, cases, synced = random.Random(a.seed), collections.Counter(), set()
    first, play = 1, functools.partial(round_of_files, synced, [0] * PAGES)
    if a.database:
        first, play = 0, functools.partial(round_of_database, not a.no_barriers)
    with tempfile.TemporaryDirectory() as folder:
        image, packed = guest_files(a)
        memory = Path(folder) / "memory"
        memory.write_bytes(packed)
        volume = Volume(a.program, folder, BLOCK, LENGTH, HOME)
        volume.has_log = not a.nbdkit
        run("mke2fs", "-q", "-F", "-t", "ext4", "-b", str(BLOCK), volume.home)
        with Disks(volume) if a.power else Relay(Path(folder) / "socket", volume.words()) as at:
            for k in range(a.rounds):
                try:
                    first = play(volume, folder, at, (image, memory), first, draw, a.seconds, cases)
                    cases["rounds"] += 1
                except (Fault, KeyboardInterrupt, sqlite3.DatabaseError) as fault:
                    print(f"round {k}: {str(fault) or 'interrupted'}", flush=True)
                    if isinstance(fault, KeyboardInterrupt) or not a.nbdkit:
                        break
                if a.nbdkit:
                    first = made_anew(volume, at)
    print(", ".join(f"{round(number)} {what}" for what, number in sorted(cases.items())))
    print(f"{cases['rounds']} rounds of {a.rounds} as they have to be, {len(synced)} files synced")
    return 0 if cases["rounds"] == a.rounds else 1


if __name__ == "__main__":
    sys.exit(main())
