#!/usr/bin/python3 -B
"""Real clients of `jbench serve`, beside a model in memory. It ends with status 1 where anything differs.

    serve_clients.py [--program PATH] [--operations N] [--seed N] [--only random|ends|copies|qemu|fio]

- random: N operations of libnbd (default: 2000) that begin and end anywhere, up to 16 at once, over volumes of several shapes: writes, zeros,
  trims, reads, flushes, changes with FUA, and requests that have to be refused. Each read has to give what the requests before it
  wrote. The client ends at random: it asks to disconnect, it closes, or it flushes and its server is killed. Then another one comes. HOME has
  to hold the model's bytes whenever a server has ended. Of a block that was trimmed nothing is claimed until it is written whole.
- ends: how a server ends: with its client, within a request, at bytes that are no request, at a client that never reads and goes; that a
  second server is refused; that a read-only one changes nothing; another name than that of the export.
- copies: nbdcopy of random bytes there and back, qemu-img convert and compare.
- qemu: N / 10 commands of qemu-io with patterns, which it verifies itself.
- fio: random writes with crc32c verification, at several sizes of a block and with a flush each 32.

It wants Debian's python3-libnbd; for `copies` libnbd-bin and qemu-utils, for `qemu` qemu-utils, for `fio` fio with its engine nbd. It makes its
files in a folder for temporary files. The program is `./jbench`, which is built first, or the one at PATH.
"""
import argparse
import collections
import contextlib
import errno
import json
import random
import socket
import struct
import subprocess
import sys
import tempfile
from pathlib import Path

import nbd

from served import Listener, Volume, add_program, capacity_of, read_all

SHAPES = [(1024, 257, 4096), (1024, 4096, 3001), (2048, 300, 1500), (4096, 1024, 1024)]  # block size, log blocks, home blocks
LENGTHS = [1, 7, 512, 1024, 4096, 5000, 16384, 65536, 300000]


class Differs(Exception):
    """Something is not as it has to be."""


def expect(holds, *said):
    if not holds:
        raise Differs(" ".join(str(word) for word in said))


class Model:
    """The bytes of a volume, and which blocks hold nobody knows what."""

    def __init__(self, held, block):
        self.held, self.block, self.unknown = bytearray(held), block, set()

    def write(self, at, data):
        self.held[at : at + len(data)] = data
        first, past = -(-at // self.block), (at + len(data)) // self.block
        self.unknown.difference_update(range(first, past))

    def trim(self, at, n):
        first, past = -(-at // self.block), (at + n) // self.block
        self.unknown.update(range(first, past))

    def blanked(self, at, data):
        """These bytes of the volume, with zeros in the blocks that are not known."""
        data = bytearray(data)
        for k in self.unknown & set(range(at // self.block, -(-(at + len(data)) // self.block))):
            first, past = max(k * self.block - at, 0), min((k + 1) * self.block - at, len(data))
            data[first:past] = bytes(past - first)
        return bytes(data)

    def learn(self, held):
        """What is found now is what it holds from now on."""
        self.held, self.unknown = bytearray(held), set()


class Session:
    """One client: it sends operations, up to 16 at once, and compares each answer with the model."""

    def __init__(self, h, model, draw, cases):
        self.h, self.model, self.draw, self.cases = h, model, draw, cases
        self.size, self.wrong, self.going = len(model.held), [], {}

    def answered(self, what, wanted=0, check=None, buffer=None):
        """What is called when an operation is answered. It holds the operation's buffer until then."""

        def completed(error, _buffer=buffer):
            self.going.pop(what, None)
            if error.value != wanted:
                self.wrong.append(f"{what} is answered with {error.value}, not {wanted}")
            elif check and not check():
                self.wrong.append(f"{what} gives other bytes")
            return 1

        return completed

    def begin(self, what, is_read, at, n):
        """Waits for what meets these bytes, if one of both is a read: such requests may be performed in any order. Then notes this one."""
        while any(other != is_read and at < past and first < at + n for other, first, past in self.going.values()):
            self.h.poll(-1)
        self.going[what] = (is_read, at, at + n)

    def once(self):
        draw, what, at = self.draw, self.draw.random(), self.draw.randrange(self.size)
        n = min(draw.choice(LENGTHS), self.size - at)
        if draw.random() < 0.4:
            at = at // self.model.block * self.model.block
            n = min(max(n // self.model.block, 1) * self.model.block, self.size - at)
        fua = nbd.CMD_FLAG_FUA if draw.random() < 0.1 else 0
        if what < 0.45:
            data = draw.randbytes(n)
            self.begin(f"write {at} {n}", False, at, n)
            self.model.write(at, data)
            buffer = nbd.Buffer.from_bytearray(bytearray(data))
            self.h.aio_pwrite(buffer, at, self.answered(f"write {at} {n}", buffer=buffer), fua)
            self.cases["writes"] += 1
        elif what < 0.8:
            self.read(at, n)
            self.cases["reads"] += 1
        elif what < 0.87:
            self.begin(f"zeros {at} {n}", False, at, n)
            self.model.write(at, bytes(n))
            self.h.aio_zero(n, at, self.answered(f"zeros {at} {n}"), fua)
            self.cases["zeros"] += 1
        elif what < 0.92:
            self.begin(f"trim {at} {n}", False, at, n)
            self.model.trim(at, n)
            self.h.aio_trim(n, at, self.answered(f"trim {at} {n}"), fua)
            self.cases["trims"] += 1
        elif what < 0.97:
            self.h.aio_flush(self.answered("flush"))
            self.cases["flushes"] += 1
        else:
            self.refused()
            self.cases["refused requests"] += 1
        while self.h.aio_in_flight() > draw.randrange(16):
            self.h.poll(-1)

    def read(self, at, n):
        into, model = nbd.Buffer(n), self.model
        self.begin(f"read {at} {n}", True, at, n)
        wanted, unknown = model.blanked(at, model.held[at : at + n]), set(model.unknown)

        def same():
            now, model.unknown = model.unknown, unknown
            found = model.blanked(at, into.to_bytearray())
            model.unknown = now
            return found == wanted

        self.h.aio_pread(into, at, self.answered(f"read {at} {n}", 0, same))

    def refused(self):
        past = nbd.Buffer.from_bytearray(bytearray(10))
        kind = self.draw.randrange(4)
        if kind == 0:
            self.h.aio_pread(nbd.Buffer(10), self.size - 5, self.answered("a read past the end", errno.EINVAL))
        elif kind == 1:
            self.h.aio_pwrite(past, self.size - 5, self.answered("a write past the end", errno.ENOSPC))
        elif kind == 2:
            self.h.aio_zero(10, self.size - 5, self.answered("zeros past the end", errno.ENOSPC))
        else:
            self.h.aio_pread(nbd.Buffer((32 << 20) + 1), 0, self.answered("too long a read", errno.EINVAL))

    def finish(self):
        while self.h.aio_in_flight():
            self.h.poll(-1)
        expect(not self.wrong, *self.wrong[:3])


def home_is(volume, model, when):
    found = volume.home.read_bytes()
    expect(model.blanked(0, found) == model.blanked(0, model.held), "HOME differs", when)
    model.learn(found)


def random_operations(program, folder, draw, operations, cases):
    volume = Volume(program, folder, *draw.choice(SHAPES))
    model, left = Model(volume.home.read_bytes(), volume.block), operations
    while left:
        server, h = volume.connect()
        h.set_strict_mode(0)
        session, count = Session(h, model, draw, cases), min(left, draw.randrange(1, 400))
        for _ in range(count):
            session.once()
        session.finish()
        left -= count
        end = draw.choice(["disconnect", "close", "kill"])
        if end == "kill":
            h.flush()
            server.kill()
        elif end == "disconnect":
            h.shutdown()
        del session, h
        status = server.wait()
        cases[f"ends by {end}"] += 1
        if end == "kill":
            server, h = volume.connect()
            found = read_all(h)
            expect(model.blanked(0, found) == model.blanked(0, model.held), "after a kill other bytes are found")
            model.learn(found)
            h.shutdown()
            del h
            status = server.wait()
        expect(status == 0, "a server ends with", status)
        home_is(volume, model, f"after {end}")


def shake_hands(client):
    """The oldest way in, by hand."""
    with contextlib.suppress(TimeoutError):
        client.recv(18, socket.MSG_WAITALL)
        client.sendall(struct.pack(">I", 3) + b"IHAVEOPT" + struct.pack(">II", 1, 0))
        client.recv(10, socket.MSG_WAITALL)


def request(command, cookie, at, n, data=b""):
    return struct.pack(">IHHQQI", 0x25609513, 0, command, cookie, at, n) + data


def status_after(volume, sent, *options, reads=True):
    """The status of a server whose client sends these bytes after the handshake and goes; without `reads` it never reads an answer."""
    server, client = volume.serve(*options)
    client.settimeout(20)
    shake_hands(client)
    with contextlib.suppress(OSError):
        client.sendall(sent)
    if reads:
        client.shutdown(socket.SHUT_WR)
        while client.recv(65536):
            pass
    client.close()
    return server.wait(20)


def is_clean(volume):
    """Whether the log that was left is clean."""
    done = subprocess.run([volume.program, "recover", volume.log, volume.home], capture_output=True, text=True)
    return done.stdout.startswith("clean ")


def ends(program, folder, cases):
    volume = Volume(program, folder, 1024, 257, 4096)

    def case(name, wanted, found):
        expect(found == wanted, f"{name}: {found}, not {wanted}", volume.said.read_text(errors="replace"))
        cases[f"ends: {name}"] += 1

    old = b"A" * 1024
    case("after a whole request", 0, status_after(volume, request(1, 1, 0, 1024, old)))
    case("clean", True, is_clean(volume))
    case("within the bytes of a write", 1, status_after(volume, request(1, 1, 0, 1024, b"B" * 1023)))
    case("nothing of it is written", old, volume.home.read_bytes()[:1024])
    case("within a request", 1, status_after(volume, request(3, 1, 0, 0)[:-1]))
    case("bytes that are no request", 1, status_after(volume, request(1, 1, 1024, 1024, b"C" * 1024) + bytes(28)))
    case("what came before them is written", b"C" * 1024, volume.home.read_bytes()[1024:2048])
    case("clean after that", True, is_clean(volume))
    reads = b"".join(request(0, k, 0, 1 << 20) for k in range(40))
    case("a client that never reads, and goes", 1, status_after(volume, request(1, 1, 2048, 1024, b"D" * 1024) + reads, reads=False))
    case("its write is there", b"D" * 1024, volume.home.read_bytes()[2048:3072])
    case("clean even so", True, is_clean(volume))
    first, client = volume.serve()
    shake_hands(client)
    second, other = volume.serve()
    case("a second server is refused", 1, second.wait(20))
    other.close(), client.close()
    case("and the first one ends well", 0, first.wait(20))
    held = volume.home.read_bytes()
    server, h = volume.connect("--read-only")
    case("read-only", True, h.is_read_only())
    h.set_strict_mode(0)
    for name, call in (("write", lambda: h.pwrite(b"x", 0)), ("zeros", lambda: h.zero(10, 0)), ("trim", lambda: h.trim(1024, 0))):
        try:
            call()
            raise Differs(f"{name} is not refused")
        except nbd.Error as error:
            case(f"{name} on a read-only export", "EPERM", error.errno)
    h.flush()
    h.shutdown()
    del h
    case("read-only ends well", 0, server.wait(20))
    case("read-only changes nothing", held, volume.home.read_bytes())
    for name, wanted in (("disk", 0), ("", 0), ("other", None)):
        server, ours = volume.serve("--export", "disk")
        h = nbd.NBD()
        h.set_export_name(name)
        try:
            h.connect_socket(ours.detach())
            h.shutdown()
            found = 0
        except nbd.Error:
            found = None
        del h
        case(f"export disk, asked for as '{name}'", wanted, found)
        server.wait(20)


def run(*words, wanted=0):
    done = subprocess.run([str(word) for word in words], capture_output=True, text=True, timeout=600)
    expect(done.returncode == wanted, *words, "ends with", done.returncode, done.stdout[-500:], done.stderr[-500:])
    return done.stdout


def copies(program, folder, draw, cases):
    for block, length, home in SHAPES:
        volume = Volume(program, folder, block, length, home)
        given, back = Path(folder) / "given", Path(folder) / "back"
        with Listener(Path(folder) / "socket", volume.words()) as at:
            for way in (["nbdcopy", "--flush", given, at.uri], ["qemu-img", "convert", "-n", "-f", "raw", "-O", "raw", given, at.uri]):
                given.write_bytes(draw.randbytes(volume.size // 2) + bytes(volume.size // 4) + draw.randbytes(volume.size - volume.size // 2 - volume.size // 4))
                run(*way)
                run("nbdcopy", at.uri, back)
                expect(back.read_bytes() == given.read_bytes(), way[0], "gives back other bytes")
                run("qemu-img", "compare", "-f", "raw", "-F", "raw", given, at.uri)
                cases[f"round trips of {way[0]}"] += 1
            at.wait(6)
            expect(at.statuses == [0] * 6, "servers end with", at.statuses)
        expect(volume.home.read_bytes() == given.read_bytes(), "HOME is not what was copied")


def qemu_commands(draw, held, count):
    """Commands of qemu-io, and how many of them verify a pattern."""
    commands, checked = [], 0
    for _ in range(count):
        what, at = draw.random(), draw.randrange(len(held))
        n = min(draw.choice(LENGTHS), len(held) - at)
        if what < 0.45:
            pattern = draw.randrange(256)
            commands.append(f"write {'-f ' if draw.random() < 0.1 else ''}-P {pattern} {at} {n}")
            held[at : at + n] = bytes([pattern]) * n
        elif what < 0.9:
            some = bytes(held[at : at + n])
            n = n - len(some.lstrip(some[:1]))
            commands.append(f"read -P {some[0]} {at} {n}")
            checked += 1
        elif what < 0.95:
            commands.append(f"write -z {at} {n}")
            held[at : at + n] = bytes(n)
        else:
            commands.append("flush")
    return commands, checked


def qemu(program, folder, draw, operations, cases):
    volume = Volume(program, folder, *draw.choice(SHAPES))
    held = bytearray(volume.size)
    with Listener(Path(folder) / "socket", volume.words()) as at:
        rounds = max(operations // 1000, 1)
        for _ in range(rounds):
            commands, checked = qemu_commands(draw, held, max(operations // 10 // rounds, 1))
            said = run("qemu-io", "-f", "raw", "-t", "none", *[word for command in commands for word in ("-c", command)], at.uri)
            expect("failed" not in said, said[-500:])
            cases["commands of qemu-io"] += len(commands)
            cases["patterns that it verified"] += checked
        at.wait(rounds)
        expect(at.statuses == [0] * rounds, "servers end with", at.statuses)
    expect(volume.home.read_bytes() == held, "HOME differs after qemu-io")


def fio(program, folder, cases):
    for size, depth, fsync in (("512", 1, 0), ("4k", 16, 32), ("16k", 8, 32), ("512-64k", 16, 32), ("1m", 4, 0)):
        volume = Volume(program, folder, 4096, 1024, 4096)
        with Listener(Path(folder) / "socket", volume.words()) as at:
            words = ["--ioengine=nbd", f"--uri={at.uri}", "--rw=randwrite", f"--iodepth={depth}", f"--fsync={fsync}", "--size=16m", "--randseed=1"]
            words += [f"--bsrange={size}" if "-" in size else f"--bs={size}", "--verify=crc32c", "--do_verify=1", "--verify_fatal=1", "--verify_state_save=0"]
            words += ["--number_ios=2000"] if size == "512" else []
            said = run("fio", "--name=verify", *words, "--output-format=json")
            job = json.loads(said[said.index("{") :])["jobs"][0]
            expect(job["error"] == 0, "fio says", job["error"])
            cases["writes of fio"] += job["write"]["total_ios"]
            cases["reads that it verified"] += job["read"]["total_ios"]
            at.wait(1)
            expect(set(at.statuses) == {0}, "servers end with", at.statuses)


def main():
    a = argparse.ArgumentParser(description=__doc__, formatter_class=argparse.RawDescriptionHelpFormatter)
    add_program(a)
    a.add_argument("--operations", type=int, default=2000)
    a.add_argument("--seed", type=int, default=1)
    a.add_argument("--only", choices=["random", "ends", "copies", "qemu", "fio"])
    a = a.parse_args()
    draw, cases = random.Random(a.seed), collections.Counter()
    parts = {
        "random": lambda folder: random_operations(a.program, folder, draw, a.operations, cases),
        "ends": lambda folder: ends(a.program, folder, cases),
        "copies": lambda folder: copies(a.program, folder, draw, cases),
        "qemu": lambda folder: qemu(a.program, folder, draw, a.operations, cases),
        "fio": lambda folder: fio(a.program, folder, cases),
    }
    wrong = 0
    for name, part in parts.items():
        if a.only in (None, name):
            with tempfile.TemporaryDirectory() as folder:
                try:
                    part(folder)
                except (Differs, nbd.Error, subprocess.SubprocessError, OSError) as error:
                    wrong += 1
                    print(f"{name}: {error!r}", flush=True)
    print(", ".join(f"{number} {what}" for what, number in cases.items() if not what.startswith("ends: ")))
    print(f"{sum(number for what, number in cases.items() if what.startswith('ends: '))} ends and refusals as they have to be, {wrong} parts wrong")
    return 1 if wrong else 0


if __name__ == "__main__":
    sys.exit(main())
