#!/usr/bin/env -S python3 -B
"""Keeps `jbench serve` at work for a long time over a home area larger than memory, with four clients that write and read at random. Each
so many seconds the program is killed and started again, and then every block is looked at.

    soak.py [--minutes M] [--every S] [--home-gib G] [--length N] [--blocks B] [--at FOLDER] [--seed N] [--program PATH]

It runs M minutes (default: 60), with a kill each S seconds (default: 60) after all blocks were looked at. The home area has G GiB (default:
twice the memory of the machine), in a sparse file. The log has N blocks of 4096 bytes (default: 2048), and the clients write B blocks of
home (default: 262144), in places of 512 blocks over all of it: so the files take at most some 1.1 GiB. They lie in a folder of FOLDER
(default: that for temporary files), which is deleted after a run without a fault, and kept after a fault.

The four clients are threads that share one connection. Each has places of its own and some that all four share. A write is one handle: it has
up to as many blocks as the export's description allows, and 512 at most. Writes are numbered in the order in which they are sent, and each of their blocks
has a stamp: the round, the client, that number, the block, and which blocks the write has. One block in four begins with the journal's magic
number, so that the log has to escape it. While the program runs, a read has to give what was sent last before it. After a kill, the volume has to
hold the first of the writes, each whole, up to a number that is no smaller than any that an answered flush or FUA covers. A flush covers the
writes that were answered before it was sent. Some blocks that no client writes are read as well: they are zeros. In three of ten rounds the
program is also killed while it opens the log. At the end the client disconnects, the status has to be 0, and HOME is read as a file.

Limits, which are faults when they are passed:

- The greatest memory (VmHWM): 64 MiB and four times the log. The program keeps a request or two and what is not in HOME yet, which is
  hardly more than the log, and an opening reads the log once. Nothing may grow with the home area, the requests or the rounds. A slow leak wants a large S.
- The memory (VmRSS) in the last third of a round: an eighth and 8 MiB above the most in the second third. By then the log has gone round.
- The greatest memory of a round: a quarter and 8 MiB above the most in the first five rounds.
- Open descriptors: as many as when the first round began. The program opens its files once.
- The size of LOG and HOME does not change. LOG takes what it has, HOME the blocks that were written; both with 16 MiB for the file system.
- An answer comes within 120 seconds.

It ends with status 1 at the first fault, and one line that names it. It prints a line a round. A kill leaves what the system was given; it is no
loss of power, which is what serve_power.py is for. When a kill comes is up to the machine, so the same seed does not give the same run.
The program is `./jbench`, which is built first, or the one at PATH. `wrong_server.py` has faults that it finds.
"""
import argparse
import array
import collections
import hashlib
import os
import random
import shutil
import signal
import struct
import subprocess
import sys
import tempfile
import threading
import time
from pathlib import Path

from served import Volume, add_program, capacity_of

BLOCK = 4096
RUN = 512  # blocks of a place that is written
CLIENTS = 4
SHARED = CLIENTS  # of the place k, k % 5 says whose it is
READ, WRITE, DISCONNECT, FLUSH = 0, 1, 2, 3
FUA = 1
STAMP = struct.Struct(">8sQQQIII20x")  # a word, the number, the block, the first block, how many blocks, the round, the client
WORDS = (b"\xc0\x3b\x39\x98soak", b"soak-one", b"soak-two", b"soak-six")  # the first begins as a header of the journal
ZEROS = bytes(BLOCK)
PATIENCE = 120  # seconds
MIB = 1 << 20


class Fault(Exception):
    """Something is not as it has to be."""


def expect(holds, *said):
    if not holds:
        raise Fault(" ".join(str(word) for word in said))


def block_of(stamp):
    """The bytes of a block with a stamp: the rest is drawn from it."""
    return stamp + hashlib.blake2b(stamp).digest() * (BLOCK // 64 - 1)


def blocks_of(number, first, count, turn, client):
    """The bytes of a write."""
    word = WORDS[number % len(WORDS)]
    return b"".join(block_of(STAMP.pack(word, number, first + k, first, count, turn, client)) for k in range(count))


def number_in(found, block):
    """The number of the write that a block's bytes are of: 0 where they are zeros, nothing where they are no block of a write to this one."""
    if found == ZEROS:
        return 0
    stamp = found[: STAMP.size]
    word, number, at, first, count, _, _ = STAMP.unpack(stamp)
    if at != block or not first <= block < first + count or word != WORDS[number % len(WORDS)] or found != block_of(stamp):
        return None
    return number


class Connection:
    """A client of NBD. Answers are handed out by a thread: to `done`, with the error and the bytes read."""

    def __init__(self, connected):
        self.socket, self.lock, self.waiting, self.cookie = connected, threading.RLock(), {}, 0
        self.gone, self.fault, self.over, self.heard = False, None, threading.Event(), time.monotonic()
        self.socket.settimeout(PATIENCE)
        self.input = self.socket.makefile("rb", MIB)
        try:
            self.shake_hands()
        except (OSError, struct.error) as error:
            raise Fault(f"the program does not greet its client: {error!r}") from None
        self.socket.settimeout(None)
        self.thread = threading.Thread(target=self.hear, daemon=True)
        self.thread.start()

    def shake_hands(self):
        """Enters the export, and asks for its description."""
        expect(self.take(18) == b"NBDMAGICIHAVEOPT\x00\x03", "no greeting of NBD")
        self.socket.sendall(struct.pack(">I8sIIIHH", 3, b"IHAVEOPT", 7, 8, 0, 1, 2))
        kind = None
        while kind != 1:
            magic, _, kind, n = struct.unpack(">QIII", self.take(20))
            told = self.take(n)
            expect(magic == 0x3E889045565A9 and kind in (1, 3), "the export is refused:", kind, told)
            if kind == 3 and told[:2] == b"\x00\x00":
                self.size = struct.unpack(">Q", told[2:10])[0]
            elif kind == 3 and told[:2] == b"\x00\x02":
                self.description = told[2:].decode()

    def get_export_description(self):
        return self.description

    def take(self, n):
        taken = self.input.read(n)
        if len(taken) < n:
            raise ConnectionError("the connection ended")
        return taken

    def send(self, command, at=0, n=0, data=b"", flags=0, done=None):
        """Sends a request. The caller holds the lock, where an order of requests matters to it."""
        with self.lock:
            self.cookie += 1
            if done:
                if not self.waiting:
                    self.heard = time.monotonic()
                self.waiting[self.cookie] = (n if command == READ else 0, done)
            self.socket.sendall(struct.pack(">IHHQQI", 0x25609513, flags, command, self.cookie, at, n) + data)

    def hear(self):
        """Takes answers until the program is gone, or one of them is wrong."""
        try:
            while True:
                magic, error, cookie = struct.unpack(">IIQ", self.take(16))
                expect(magic == 0x67446698 and cookie in self.waiting, "an answer to no request")
                n, done = self.waiting.pop(cookie)
                data = self.take(n) if not error else b""
                self.heard = time.monotonic()
                done(error, data)
        except OSError:
            self.gone = True
        except Fault as fault:
            self.fault = fault
        self.over.set()

    def look(self):
        """Fails where an answer was wrong, or none comes."""
        if self.fault:
            raise self.fault
        expect(not self.waiting or time.monotonic() - self.heard < PATIENCE, "no answer within", PATIENCE, "seconds")

    def read(self, at, n):
        """Reads, and waits for it."""
        got, come = [], threading.Event()
        self.send(READ, at, n, done=lambda error, data: (got.append((error, data)), come.set()))
        while not come.wait(0.5):
            self.look()
            expect(not self.gone, "the program ends while it is read")
        expect(got[0][0] == 0, f"a read of {n} bytes at {at} is answered with {got[0][0]}")
        return got[0][1]

    def close(self):
        self.thread.join(PATIENCE)
        self.input.close()
        self.socket.close()


class Model:
    """Which writes each block may hold: the one that is settled, or a later one. Its methods are called with the connection's lock."""

    def __init__(self, home, places, draw):
        stride = (home - RUN) // (places - 1)
        self.firsts = [k * stride + (draw.randrange(stride - RUN + 1) if 0 < k < places - 1 else 0) for k in range(places)]
        self.firsts[-1] = home - RUN
        self.settled, self.later = array.array("Q", bytes(8 * places * RUN)), {}
        self.sent = self.answered = self.covered = self.touched = 0

    def write(self, slot, count):
        """The number of a write that is sent now."""
        self.sent += 1
        for k in range(slot, slot + count):
            later = self.later.setdefault(k, [])
            self.touched += not later and not self.settled[k]
            while later and later[0] <= self.covered:
                self.settled[k] = later.pop(0)
            later.append(self.sent)
        return self.sent

    def newest(self, slot, count):
        return [self.later[k][-1] if self.later.get(k) else self.settled[k] for k in range(slot, slot + count)]

    def block(self, slot):
        return self.firsts[slot // RUN] + slot % RUN

    def settle(self, found):
        """What is found after an opening: it has to be the first of the writes. The answer is up to which one, and how many were sent after the
        last one that was covered."""
        least, least_block, most, most_block = 0, 0, self.sent, None
        for slot, number in enumerate(found):
            may = [self.settled[slot], *self.later.get(slot, ())]
            block = self.block(slot)
            if number not in may:
                what = "lost: " if number is not None and number < may[0] else ""
                raise Fault(f"{what}block {block} holds {describe(number)}; what it may hold: {', '.join(map(describe, may[-8:]))}")
            if number > least:
                least, least_block = number, block
            place = may.index(number) + 1
            if place < len(may) and may[place] <= most:
                most, most_block = may[place] - 1, block
        lacks = f"block {most_block} lacks write {most + 1}"
        expect(most >= self.covered, f"lost: {lacks}, and a flush that was answered covers all up to write {self.covered}")
        expect(most + 1 != least, f"torn: {lacks}, and block {least_block} holds its part of it")
        expect(most >= least, f"out of order: {lacks}, and block {least_block} holds write {least}")
        uncovered, kept = self.sent - self.covered, least - self.covered
        self.settled, self.later = array.array("Q", found), {}
        self.touched = sum(1 for number in found if number)
        self.answered = self.covered = self.sent
        return max(kept, 0), uncovered


def describe(number):
    return "bytes of no write to it" if number is None else f"write {number}" if number else "zeros"


class Client:
    """One of four: it sends requests until the program is gone, so many at once."""

    def __init__(self, own, connection, model, turn, counts, draw):
        self.own, self.connection, self.model, self.turn, self.counts, self.draw = own, connection, model, turn, counts, draw
        self.most, self.room = min(capacity_of(connection), RUN), threading.Semaphore(draw.choice((1, 2, 4, 8)))
        places = range(len(model.firsts))
        self.places = {whose: [k for k in places if k % (CLIENTS + 1) == whose] for whose in (own, SHARED)}

    def run(self):
        try:
            while not self.connection.over.is_set():
                if self.room.acquire(timeout=0.2):
                    self.once()
        except OSError:
            return
        except Exception as error:
            self.connection.fault = error if isinstance(error, Fault) else Fault(f"a client ends: {error!r}")
            self.connection.over.set()

    def slots(self):
        """Some slots of one place, more often of the first eight."""
        draw = self.draw
        places = self.places[self.own if draw.random() < 0.6 else SHARED]
        place = draw.choice(places[:8] if draw.random() < 0.4 else places)
        kind = draw.random()
        least, most = (1, 1) if kind < 0.4 else (2, 8) if kind < 0.9 else (9, 64) if kind < 0.99 else (65, RUN)
        count = min(draw.randint(least, most), self.most)
        return place * RUN + draw.randint(0, RUN - count), count

    def once(self):
        what, connection, model = self.draw.random(), self.connection, self.model
        with connection.lock:
            if what < 0.06:
                connection.send(FLUSH, done=self.flushed(model.answered))
                return
            slot, count = self.slots()
            block = model.block(slot)
            if what < 0.4:
                connection.send(READ, block * BLOCK, count * BLOCK, done=self.has_read(block, model.newest(slot, count)))
                return
            number, flags = model.write(slot, count), FUA if what < 0.42 else 0
            data = blocks_of(number, block, count, self.turn, self.own)
            connection.send(WRITE, block * BLOCK, len(data), data, flags, self.written(number, count, flags))

    def flushed(self, covers):
        def done(error, _):
            expect(error == 0, f"a flush is answered with {error}")
            self.model.covered = max(self.model.covered, covers)
            self.counts["flushes"] += 1
            self.room.release()

        return done

    def written(self, number, count, flags):
        def done(error, _):
            expect(error == 0, f"write {number} is answered with {error}")
            self.model.answered = max(self.model.answered, number)
            if flags:
                self.model.covered = max(self.model.covered, number)
                self.counts["flushes"] += 1
            self.counts["writes"] += 1
            self.counts["blocks written"] += count
            self.room.release()

        return done

    def has_read(self, block, newest):
        def done(error, data):
            expect(error == 0, f"a read of block {block} is answered with {error}")
            for k, wanted in enumerate(newest):
                found = number_in(data[k * BLOCK : (k + 1) * BLOCK], block + k)
                expect(found == wanted, f"a read gives {describe(found)} in block {block + k}, and not {describe(wanted)}, which was sent last before it")
            self.counts["reads"] += 1
            self.room.release()

        return done


class Watch:
    """The memory and the descriptors of the program, and the sizes of its files."""

    def __init__(self, volume, length):
        self.volume, self.length, self.descriptors, self.greatest = volume, length, None, []
        self.limit = 64 * MIB + 4 * length * BLOCK

    def begin(self, server):
        self.process, self.rss, self.most = Path(f"/proc/{server.pid}"), [], 0

    def look(self, part):
        """Looks, in this part of a round, from 0 to 1."""
        facts = dict(line.split(":", 1) for line in (self.process / "status").read_text().splitlines())
        if "VmRSS" not in facts:
            return  # it is gone, which others see
        rss, self.most = (int(facts[name].split()[0]) << 10 for name in ("VmRSS", "VmHWM"))
        expect(self.most <= self.limit, f"the program has taken {self.most // MIB} MiB of memory; the limit is {self.limit // MIB} MiB")
        self.rss.append((part, rss))
        descriptors = len(os.listdir(self.process / "fd"))
        self.descriptors = self.descriptors or descriptors
        expect(descriptors == self.descriptors, f"the program has {descriptors} descriptors open; there were {self.descriptors} at first")

    def end(self):
        """After a round."""
        middle = max((rss for part, rss in self.rss if 1 / 3 <= part < 2 / 3), default=None)
        last = max((rss for part, rss in self.rss if part >= 2 / 3), default=0)
        if middle:
            expect(last <= middle * 9 // 8 + 8 * MIB, f"memory grows within a round: {middle // MIB} MiB, and then {last // MIB} MiB")
        if len(self.greatest) >= 5:
            most = max(self.greatest[:5])
            expect(self.most <= most * 5 // 4 + 8 * MIB, f"memory grows with the rounds: {most // MIB} MiB at most, and then {self.most // MIB} MiB")
        self.greatest.append(self.most)

    def files(self, touched):
        """The MiB that LOG and HOME take."""
        taken = []
        for path, size, least in ((self.volume.log, self.length * BLOCK, self.length), (self.volume.home, self.volume.size, touched)):
            facts = path.stat()
            expect(facts.st_size == size, f"{path.name} has {facts.st_size} bytes, not {size}")
            most = least * BLOCK + 16 * MIB
            expect(facts.st_blocks * 512 <= most, f"{path.name} takes {facts.st_blocks * 512} bytes; the limit is {most}")
            taken.append(facts.st_blocks * 512 / MIB)
        return taken


class Soak:
    """All rounds over one volume."""

    def __init__(self, a, volume):
        self.a, self.volume, self.draw, self.totals = a, volume, random.Random(a.seed), collections.Counter()
        self.model, self.watch = Model(volume.size // BLOCK, a.blocks // RUN, self.draw), Watch(volume, a.length)
        self.server, self.opened = None, 0  # seconds of the last opening

    def open(self):
        """Starts the program and connects to it."""
        if self.totals["rounds"] and self.draw.random() < 0.3:
            self.server, ours = self.volume.serve()
            time.sleep(self.draw.uniform(0, self.opened))
            self.kill()
            ours.close()
            self.totals["openings killed"] += 1
        begun = time.monotonic()
        self.server, ours = self.volume.serve()
        connection = Connection(ours)
        self.opened = time.monotonic() - begun
        expect(connection.size == self.volume.size, "the export has", connection.size, "bytes")
        self.watch.begin(self.server)
        return connection

    def kill(self):
        if self.server:
            self.server.kill()
            self.server.wait()

    def found(self, read):
        """Which write each block holds, by a function that reads so many bytes at a place."""
        found = []
        for first in self.model.firsts:
            data = read(first * BLOCK, RUN * BLOCK)
            found += [number_in(data[k * BLOCK : (k + 1) * BLOCK], first + k) for k in range(RUN)]
        for k in range(64):
            first = self.draw.choice(self.model.firsts[:-1]) + RUN
            past = min(at for at in self.model.firsts if at >= first)
            if first < past:
                block = self.draw.randrange(first, past)
                expect(read(block * BLOCK, BLOCK) == ZEROS, f"block {block} holds bytes that no client wrote")
        return found

    def check(self, read):
        """Looks at every block. The answer is how many writes were kept beyond those that were covered, and how many there were."""
        found = self.found(read)
        self.totals["blocks checked"] += len(found)
        return self.model.settle(found)

    def round(self, seconds):
        """Opens, checks, has four clients at work, kills, and tells."""
        counts, turn = collections.Counter(), self.totals["rounds"] + 1
        connection = self.open()
        begun = time.monotonic()
        kept, uncovered = self.check(connection.read)
        self.watch.look(0)
        checked = time.monotonic()
        clients = [Client(k, connection, self.model, turn, counts, random.Random(self.draw.random())) for k in range(CLIENTS)]
        threads = [threading.Thread(target=client.run, daemon=True) for client in clients]
        for thread in threads:
            thread.start()
        while (part := (time.monotonic() - checked) / seconds) < 1:
            connection.over.wait(min(0.5, (1 - part) * seconds))
            connection.look()
            expect(not connection.gone, "the program ends by itself, with status", self.server.wait() if connection.gone else None)
            self.watch.look(part)
        self.kill()
        expect(self.server.returncode == -signal.SIGKILL, "the program ends by itself, with status", self.server.returncode)
        for thread in threads:
            thread.join(PATIENCE)
        connection.close()
        connection.waiting.clear()
        connection.look()
        self.watch.end()
        log, home = self.watch.files(self.model.touched)
        self.totals.update(counts)
        self.totals["rounds"] += 1
        print(
            f"round {turn}: opened in {self.opened:.2f} s, {len(self.model.settled)} blocks checked in {checked - begun:.1f} s,",
            f"{kept} of {uncovered} writes after the last flush found;",
            f"{counts['writes']} writes, {counts['flushes']} flushes, {counts['reads']} reads, {counts['blocks written'] * BLOCK / MIB:.0f} MiB written;",
            f"memory {self.watch.rss[-1][1] / MIB:.1f} MiB, most {self.watch.most / MIB:.1f}; log {log:.1f} MiB, home {home:.1f} MiB",
            flush=True,
        )

    def end(self):
        """The last opening, a client that disconnects, and HOME as a file."""
        connection = self.open()
        self.check(connection.read)
        connection.send(DISCONNECT)
        connection.close()
        expect((status := self.server.wait(PATIENCE)) == 0, "after a client that disconnects the status is", status)
        with open(self.volume.home, "rb") as home:
            self.check(lambda at, n: os.pread(home.fileno(), n, at))
        self.watch.files(self.model.touched)

    def told(self):
        names = ("writes", "flushes", "reads", "blocks checked", "openings killed")
        return ", ".join(f"{self.totals[name]} {name}" for name in names) + f", {self.totals['blocks written'] * BLOCK // MIB} MiB written"


def main():
    a = argparse.ArgumentParser(description=__doc__, formatter_class=argparse.RawDescriptionHelpFormatter)
    add_program(a)
    memory = os.sysconf("SC_PAGE_SIZE") * os.sysconf("SC_PHYS_PAGES")
    a.add_argument("--minutes", type=float, default=60)
    a.add_argument("--every", type=float, default=60)
    a.add_argument("--home-gib", type=float, default=2 * memory / (1 << 30))
    a.add_argument("--length", type=int, default=2048)
    a.add_argument("--blocks", type=int, default=262144)
    a.add_argument("--at", default=None)
    a.add_argument("--seed", type=int, default=1)
    a = a.parse_args()
    if a.minutes <= 0 or a.every <= 0 or a.blocks < 16 * RUN or a.home_gib * (1 << 30) < 2 * a.blocks * BLOCK:
        sys.exit(f"soak.py: times are greater than 0, there are at least {16 * RUN} blocks, and the home area is at least twice as large as they are")
    folder = Path(tempfile.mkdtemp(prefix="soak.", dir=a.at))
    soak, status = None, 0
    try:
        soak = Soak(a, Volume(a.program, folder, BLOCK, a.length, int(a.home_gib * (1 << 30)) // BLOCK, sparse=True))
        sizes = f"home {a.home_gib:.1f} GiB, log {a.length * BLOCK / MIB:.1f} MiB, memory at most {soak.watch.limit // MIB} MiB"
        print(f"seed {a.seed}, {sizes}, in {folder}", flush=True)
        end = time.monotonic() + a.minutes * 60
        while time.monotonic() < end:
            soak.round(a.every)
        soak.end()
        print(f"{soak.totals['rounds']} rounds, 0 faults: {soak.told()}")
    except KeyboardInterrupt:
        print(f"interrupted after {soak.totals['rounds'] if soak else 0} rounds, 0 faults")
        status = 130
    except (Fault, OSError, subprocess.SubprocessError) as fault:
        said = soak.volume.said.read_text(errors="replace") if soak else (getattr(fault, "stderr", None) or b"").decode(errors="replace")
        said = f"; the program said: {' '.join(said.split())[-300:]}" if said.strip() else ""
        print(f"fault in round {soak.totals['rounds'] + 1 if soak else 0}: {fault}{said}; the files are kept in {folder}", flush=True)
        status = 1
    finally:
        if soak:
            soak.kill()
    if status != 1:
        shutil.rmtree(folder)
    return status


if __name__ == "__main__":
    sys.exit(main())
