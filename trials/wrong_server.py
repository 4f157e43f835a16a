#!/usr/bin/env -S python3 -B
"""A block device that is wrong on purpose, by which it is tried that soak.py finds faults. It takes two commands of `jbench`, `format` and
`serve`, and keeps a log of its own kind: records of a length, a place, a checksum and the bytes, each written by one call, and brought home by
an opening and whenever the log is full.

    WRONG=KIND soak.py --program trials/wrong_server.py ..

KIND says what is wrong from the third second of an opening on:

- nothing: all is right, and soak.py has to find no fault.
- flush: a flush is answered, and what it covers is still in memory.
- torn: of a write of several blocks each is a record of its own, the last of which is late.
- order: a write waits in memory until the next one is in the log.
- stale: a read gives what HOME has.
- misplaced: one write goes to the block after its own.
- old: an opening drops the last records.
- leak: memory grows with the requests; slow: by 2 MiB a second, which wants rounds of 30 seconds.
- growth: memory grows with the openings.
- descriptors: a file is opened for each read, and stays open.
- file: LOG grows.
- ends: the program ends by itself.
- silent: a request has no answer.
"""
import os
import struct
import sys
import time
import zlib

BLOCK = 4096
HEAD = struct.Struct(">IQI")
KINDS = "nothing flush torn order stale misplaced old leak slow growth descriptors file ends silent".split()


class Server:
    def __init__(self, log, home, wrong):
        self.log, self.home, self.wrong = os.open(log, os.O_RDWR), os.open(home, os.O_RDWR), wrong
        self.path, self.size, self.room = home, os.fstat(self.home).st_size, os.fstat(self.log).st_size
        self.newest, self.late, self.kept, self.at, self.count, self.began = {}, [], [], 0, 0, time.monotonic()
        if wrong == "growth":
            with open(f"{log}.openings", "ab+") as openings:
                openings.write(b"x")
                self.kept.append(os.urandom(openings.tell() * 6 << 20))
        self.recover()

    def is_wrong(self, kind):
        return self.wrong == kind and time.monotonic() - self.began > 3

    def recover(self):
        """Brings home what the log has, up to the first record that is not whole."""
        text, at, records = os.pread(self.log, self.room, 0), 0, []
        while at + HEAD.size <= len(text):
            n, place, check = HEAD.unpack_from(text, at)
            data = text[at + HEAD.size : at + HEAD.size + n]
            if not n or len(data) < n or zlib.crc32(data, place & 0xFFFFFFFF) != check:
                break
            records.append((place, data))
            at += HEAD.size + n
        for place, data in records[:-20] if self.wrong == "old" else records:
            os.pwrite(self.home, data, place)
        os.pwrite(self.log, bytes(self.room), 0)

    def keep(self, place, data):
        """A record of the log. A full one is brought home first."""
        if self.at + HEAD.size + len(data) > self.room:
            for block, held in self.newest.items():
                os.pwrite(self.home, held, block * BLOCK)
            os.pwrite(self.log, bytes(self.room), 0)
            self.newest, self.at = {}, 0
        record = HEAD.pack(len(data), place, zlib.crc32(data, place & 0xFFFFFFFF)) + data
        os.pwrite(self.log, record, self.at)
        self.at += len(record)

    def due(self):
        """How many of the late records go to the log now."""
        if self.is_wrong("flush"):
            return len(self.late) if len(self.late) > 500 else 0
        if self.is_wrong("order") and self.count % 2:
            self.late.reverse()
        return len(self.late) - (self.is_wrong("order") or self.is_wrong("torn"))

    def keep_late(self, count):
        for record in self.late[:count]:
            self.keep(*record)
        del self.late[:count]

    def write(self, place, data):
        if self.is_wrong("misplaced") and place + len(data) < self.size:
            place, self.wrong = place + BLOCK, "nothing"
        self.count += 1
        parts = [data[:-BLOCK], data[-BLOCK:]] if self.is_wrong("torn") and len(data) > BLOCK else [data]
        self.late += [(place, parts[0]), *[(place + len(parts[0]), part) for part in parts[1:]]]
        self.keep_late(self.due())
        for k in range(0, len(data), BLOCK):
            self.newest[(place + k) // BLOCK] = data[k : k + BLOCK]
        if self.is_wrong("leak"):
            self.kept.append(bytearray(data))
        if self.is_wrong("slow") and len(self.kept) < 2 * (time.monotonic() - self.began - 3):
            self.kept.append(os.urandom(1 << 20))
        if self.is_wrong("file"):
            os.pwrite(self.log, b"x", self.room + BLOCK)

    def read(self, place, n):
        data = bytearray(os.pread(self.home, n, place))
        if self.is_wrong("descriptors"):
            self.kept.append(os.open(self.path, os.O_RDONLY))
        if not self.is_wrong("stale"):
            for k in range(0, n, BLOCK):
                if held := self.newest.get((place + k) // BLOCK):
                    data[k : k + BLOCK] = held
        return data

    def take(self, n):
        taken = sys.stdin.buffer.read(n)
        if len(taken) < n:
            sys.exit(1)
        return taken

    def give(self, data):
        sys.stdout.buffer.write(data)
        sys.stdout.buffer.flush()

    def serve(self):
        """Serves the one client."""
        self.give(b"NBDMAGICIHAVEOPT\x00\x03")
        self.take(4)
        _, option, n = struct.unpack(">QII", self.take(16))
        self.take(n)
        told = struct.pack(">HQH", 0, self.size, 1 | 4 | 8), b"\x00\x02journal: a write of up to 508 blocks of 4096 bytes is atomic"
        for kind, data in ((3, told[0]), (3, told[1]), (1, b"")):
            self.give(struct.pack(">QIII", 0x3E889045565A9, option, kind, len(data)) + data)
        while True:
            _, _, command, cookie, at, n = struct.unpack(">IHHQQI", self.take(28))
            data = b""
            if command == 2:
                self.keep_late(len(self.late))
                return self.recover()
            if command == 0:
                data = self.read(at, n)
            elif command == 1:
                self.write(at, self.take(n))
            elif not self.is_wrong("flush"):
                self.keep_late(len(self.late))
            if self.is_wrong("ends"):
                sys.exit(3)
            if not self.is_wrong("silent"):
                self.give(struct.pack(">IIQ", 0x67446698, 0, cookie) + data)


def main():
    command, log, home, *options = sys.argv[1:]
    if command == "format":
        named = dict(zip(options, options[1:]))
        with open(log, "wb") as file:
            file.write(bytes(int(named["--block"]) * int(named["--length"])))
        return 0
    if (wrong := os.environ.get("WRONG", "nothing")) not in KINDS:
        sys.exit(f"wrong_server.py: WRONG is one of {', '.join(KINDS)}")
    Server(log, home, wrong).serve()
    return 0


if __name__ == "__main__":
    sys.exit(main())
