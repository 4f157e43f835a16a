#!/usr/bin/env python3
"""Writes the rows of crates/serve_rows: what a client sends, and what a server has to answer and to leave, by a model of NBD (proto.md of the
nbd project) that shares nothing with the server.

    serve_rows.py FOLDER        writes FOLDER/streams.rows, FOLDER/waits.rows and FOLDER/stops.rows
"""
import itertools, struct, sys

BLOCK, HOME, CAPACITY = 1024, 64, 6
SIZE = BLOCK * HOME
FUA, MOST = 1, 32 << 20
DESCRIPTION = b"journal: a write of up to %d blocks of %d bytes is atomic" % (CAPACITY, BLOCK)


def spell(data):
    words, opened = "", False
    for byte, run in itertools.groupby(data):
        n = len(list(run))
        if n >= 8:
            words, opened = words + " %d*%02x" % (n, byte), False
        else:
            words, opened = words + ("" if opened else " ") + "%02x" % byte * n, True
    return words


class Connection:
    def __init__(self, name=b"", read_only=False, no_zeroes=True, flags=None):
        self.name, self.read_only = name, read_only
        self.no_zeroes = no_zeroes
        self.hello = struct.pack(">I", 3 if no_zeroes else 1) if flags is None else flags
        self.requests, self.committed, self.count = b"", [], 0
        self.parts, self.left = [], False
        self.end = "malformed" if flags and struct.unpack(">I", flags)[0] > 3 else "well"
        self.out = b"NBDMAGICIHAVEOPT" + struct.pack(">H", 3)
        self.home = bytearray(SIZE)
        self.changed, self.filled, self.may_be_home = set(), set(), False

    def flags(self):
        return 1 | 4 | 8 | 32 | 64 | (2 if self.read_only else 0)

    def reply_option(self, option, kind, data=b""):
        self.out += struct.pack(">QIII", 0x3E889045565A9, option, kind, len(data)) + data

    def option(self, option, data=b"", magic=b"IHAVEOPT"):
        self.hello += magic + struct.pack(">II", option, len(data)) + data
        if magic != b"IHAVEOPT":
            self.end = "malformed"
        elif len(data) > 8192:
            if option != 1:
                self.reply_option(option, 0x80000009)
        elif option == 1:
            if data in (b"", self.name):
                self.out += struct.pack(">QH", SIZE, self.flags()) + (b"" if self.no_zeroes else bytes(124))
        elif option == 2:
            self.reply_option(option, 1)
        elif option == 3:
            if data:
                self.reply_option(option, 0x80000003)
            else:
                self.reply_option(option, 2, struct.pack(">I", len(self.name)) + self.name)
                self.reply_option(option, 1)
        elif option in (6, 7):
            self.tell(option, data)
        else:
            self.reply_option(option, 0x80000001)
        return self

    def tell(self, option, data):
        if len(data) < 6:
            return self.reply_option(option, 0x80000003)
        n = struct.unpack(">I", data[:4])[0]
        if len(data) < n + 6:
            return self.reply_option(option, 0x80000003)
        name, count, wanted = data[4 : 4 + n], struct.unpack(">H", data[4 + n : 6 + n])[0], data[6 + n :]
        if len(wanted) != 2 * count:
            return self.reply_option(option, 0x80000003)
        if name not in (b"", self.name):
            return self.reply_option(option, 0x80000006)
        self.reply_option(option, 3, struct.pack(">HQH", 0, SIZE, self.flags()))
        for (kind,) in struct.iter_unpack(">H", wanted):
            if kind == 1:
                self.reply_option(option, 3, struct.pack(">H", 1) + self.name)
            if kind == 2:
                self.reply_option(option, 3, struct.pack(">H", 2) + DESCRIPTION)
            if kind == 3:
                self.reply_option(option, 3, struct.pack(">HIII", 3, 1, BLOCK, MOST))
        self.reply_option(option, 1)

    def go(self, name=b"", *wanted):
        return self.option(7, struct.pack(">I", len(name)) + name + struct.pack(">H", len(wanted)) + b"".join(struct.pack(">H", w) for w in wanted))

    def reply(self, error, cookie, data=b""):
        self.out += struct.pack(">IIQ", 0x67446698, error, cookie) + data

    def refusal(self, command, offset, length, flags):
        past = offset + length > SIZE
        if command == 0:
            return 22 if flags > 1 or length > MOST or past else 0
        if command == 3:
            return 22 if flags > 1 or offset or length else 0
        if command in (1, 4, 6):
            if self.read_only:
                return 1
            if past:
                return 28
            return 22 if flags > (3 if command == 6 else 1) or command == 1 and length > MOST else 0
        return 22

    def request(self, command, cookie, offset=0, length=0, data=b"", flags=0, magic=0x25609513, alone=True):
        length = length or len(data)
        if alone:
            self.parts.append((len(self.requests), len(self.out)))
        self.requests += struct.pack(">IHHQQI", magic, flags, command, cookie, offset, length) + data
        if magic != 0x25609513:
            self.end = "malformed"
            return self
        if command == 2:
            self.left = True
            return self
        self.count += 1
        error = self.refusal(command, offset, length, flags)
        if error:
            self.reply(error, cookie)
            return self
        if command == 0:
            self.reply(0, cookie, bytes(self.home[offset : offset + length]))
            return self
        if command in (1, 4, 6):
            self.changed.update(range(offset // BLOCK, -(-(offset + length) // BLOCK)))
        if command in (1, 6):
            self.home[offset : offset + length] = data if command == 1 else bytes(length)
        if command == 1:
            self.filled.update(range(offset // BLOCK, -(-(offset + length) // BLOCK)))
        if command == 4:
            first, past = -(-offset // BLOCK) * BLOCK, (offset + length) // BLOCK * BLOCK
            # a trimmed block reads as home holds it, and a checkpoint may come at any time after a commit
            if self.may_be_home and any(first <= k * BLOCK < past for k in self.filled):
                raise ValueError("a row trims a block that home may hold, zeros or not")
            self.home[first:past] = bytes(max(past - first, 0))
        if command == 3 or flags & FUA:
            self.committed.append(cookie)
        # a commit begins at a flush, or once half of the credits are used
        self.may_be_home |= command == 3 or flags & FUA > 0 or 2 * len(self.changed) >= CAPACITY
        self.reply(0, cookie)
        return self

    def cut(self, n):
        """the client ends within its last request, of which n bytes are left out"""
        self.requests = self.requests[:-n]
        self.end = "within"
        return self

    def given(self):
        return "serves %s\nhello%s\nrequests%s" % (
            ("readonly " if self.read_only else "writable ") + self.name.decode(), spell(self.hello), spell(self.requests))

    def given_apart(self):
        """as `given`, with a line for each part: the client gives it once it has all answers to those before it"""
        ends = [a for a, _ in self.parts[1:]] + [len(self.requests)]
        lines = ["after %d%s" % (after, spell(self.requests[a:b])) for (a, after), b in zip(self.parts, ends)]
        lines += [] if self.left else ["after %d" % len(self.out)]
        return "serves %s\nhello%s\nrequests\n%s" % (
            ("readonly " if self.read_only else "writable ") + self.name.decode(), spell(self.hello), "\n".join(lines))

    def wanted(self):
        return "out%s\nend %s requests=%d closed=true\ncommitted%s\nhome%s" % (
            spell(self.out), self.end, self.count, "".join(" %d" % c for c in self.committed), spell(self.home))


def streams():
    c = Connection
    yield "nothing is asked", c(flags=b"")
    yield "the client ends after its flags", c()
    yield "flags of a client that are not known", c(flags=struct.pack(">I", 7))
    yield "the client aborts", c().option(2)
    yield "the oldest way in, with zeros", c(no_zeroes=False).option(1).request(2, 1)
    yield "the oldest way in, without zeros", c(name=b"disk").option(1, b"disk").request(2, 1)
    yield "another name ends the oldest way in", c(name=b"disk").option(1, b"disc")
    yield "too long a name ends the oldest way in, which has no answer for it", c().option(1, bytes(9000))
    yield "names are listed", c(name=b"disk").option(3).option(3, b"x").option(2)
    yield "facts are told that are asked for", c(name=b"disk").option(6, struct.pack(">IH", 0, 0)).go(b"disk", 1, 2, 3, 9).request(2, 1)
    yield "there is no export of another name", c(name=b"disk").go(b"disc").go(b"").request(2, 1)
    yield "unknown options are refused, as are structured replies and block status", c().option(8).option(9, bytes(8)).option(10, bytes(8)).option(5).option(99, b"x").go().request(2, 1)
    yield "an option with too many bytes is read over", c().option(7, bytes(9000)).go().request(2, 1)
    yield "a name longer than what there is", c().option(7, struct.pack(">IH", 0xFFFFFFFF, 0)).option(6, struct.pack(">IH", 1, 0)).option(7, b"").option(7, struct.pack(">IHH", 0, 2, 3)).go().request(2, 1)
    yield "an option without the magic", c().option(7, bytes(6), magic=b"IHAVEOPS")
    yield "whole blocks are written and read", c().go().request(1, 1, 1024, data=b"A" * 2048).request(0, 2, 0, 4096).request(2, 3)
    yield "heads and tails keep the rest of their blocks", c().go().request(1, 1, 1024, data=b"A" * 3072).request(1, 2, 1500, data=b"B" * 1500).request(1, 3, 1025, data=b"C").request(0, 4, 1000, 3200).request(2, 5)
    yield "a write over more blocks than one handle has credits", c().go().request(1, 1, 512, data=b"A" * 9000).request(0, 2, 0, 16384).request(3, 3).request(2, 4)
    yield "a long read is answered whole, though the client has ended", c().go().request(1, 1, 512, data=b"A" * 5000).request(0, 2, 0, SIZE).request(2, 4)
    yield "a flush with nothing to flush", c().go().request(3, 7).request(2, 8)
    yield "a write with FUA", c().go().request(1, 0xFFFFFFFFFFFFFFFF, 2048, data=b"F" * 1024, flags=1).request(2, 8)
    yield "zeros over more blocks than one handle has credits, with FUA", c().go().request(1, 1, 0, data=b"A" * SIZE).request(6, 2, 700, SIZE - 1400, flags=3).request(2, 8)
    yield "a trim drops whole blocks", c().go().request(1, 1, 0, data=b"A" * 2048).request(4, 2, 500, 1548).request(0, 3, 0, 3072).request(2, 4)
    yield "a trim with FUA", c().go().request(1, 1, 3072, data=b"A" * 1024).request(4, 2, 3072, 1024, flags=1).request(2, 3)
    yield "a write over a part of a block that was trimmed", c().go().request(1, 1, 3072, data=b"A" * 1024).request(4, 2, 3072, 1024).request(1, 3, 3500, data=b"B" * 10).request(0, 4, 3072, 1024).request(3, 5).request(2, 6)
    yield "bytes past the end", c().go().request(0, 1, SIZE - 5, 10).request(1, 2, SIZE - 5, data=b"0123456789").request(4, 3, SIZE, 1).request(6, 4, 1, SIZE).request(0, 5, 2**64 - 1, 2).request(1, 6, 2**64 - 1, data=b"xx").request(0, 7, SIZE - 5, 5).request(2, 8)
    yield "requests without bytes", c().go().request(0, 1, SIZE, 0).request(1, 2, 5).request(6, 3, 7).request(4, 4, 7).request(2, 8)
    yield "unknown commands and flags", c().go().request(7, 1, 0, 1024).request(5, 2).request(99, 3).request(0, 4, 0, 1, flags=4).request(1, 5, 0, data=b"A", flags=2).request(6, 6, 0, 1, flags=16).request(3, 7, 1).request(3, 8, 0, 1).request(2, 9)
    yield "a read of too many bytes", c().go().request(0, 1, 0, MOST + 1).request(0, 2, 0, 1).request(2, 3)
    yield "a read-only export", c(read_only=True).go(b"", 3).request(1, 1, 0, data=b"A" * 1024).request(6, 2, 0, 1024).request(4, 3, 0, 1024).request(0, 4, 0, 8).request(3, 5).request(2, 6)
    yield "a request without the magic", c().go().request(1, 1, 0, data=b"A" * 1024).request(0, 2, magic=0x25609512)
    yield "the client ends between two requests", c().go().request(1, 1, 0, data=b"A" * 1024)
    c1 = c().go().request(1, 1, 0, data=b"A" * 1024)
    before = (c1.out, bytes(c1.home), c1.count)
    c1.request(1, 2, 0, data=b"B" * 1024)
    c1.out, c1.home, c1.count = before[0], before[1], before[2] + 1
    yield "the client ends within the bytes of a write, of which nothing is written", c1.cut(1)
    c2 = c().go().request(1, 1, 0, data=b"A" * 1024).request(0, 2, 0, 0)
    c2.out, c2.count = before[0], before[2]
    yield "the client ends within a request", c2.cut(1)
    yield "wrong on purpose: a flush that is answered with an error", c().go().request(3, 7).request(2, 8)


def waits():
    c = Connection
    yield "writes and reads, each after the answer to the one before", c().go().request(1, 1, 1024, data=b"A" * 2048).request(0, 2, 0, 4096).request(1, 3, 1500, data=b"B" * 1500).request(1, 4, 9, data=b"C").request(0, 5, 0, 4096).request(2, 6)
    yield "zeros, trims and requests without bytes", c().go().request(1, 1, 0, data=b"A" * 1024).request(1, 2, 2048, data=b"A" * 2048).request(6, 3, 700, 1400).request(4, 4, 1000, 2000).request(6, 5, 7).request(4, 6, 7).request(0, 7, 0, 5000).request(2, 8)
    yield "long reads", c().go().request(1, 1, 512, data=b"A" * 5000).request(0, 2, 0, SIZE).request(0, 3, 0, SIZE).request(2, 4)
    yield "a trim of all blocks, of which one was written", c().go().request(1, 1, 3072, data=b"A" * 1024).request(4, 2, 0, SIZE).request(0, 3, 2048, 3072).request(3, 4).request(2, 5)
    yield "a long write, and a short one before it is answered", c().go().request(1, 1, 0, data=b"A" * SIZE).request(1, 2, 300, data=b"B" * 900, alone=False).request(0, 3, 0, SIZE).request(2, 4)
    yield "refusals", c().go().request(1, 1, SIZE - 5, data=b"0123456789").request(4, 2, SIZE, 1).request(0, 3, 0, MOST + 1).request(99, 4).request(1, 5, 0, data=b"A").request(2, 6)
    one = c().go()
    for k in range(20):
        one.request(1, 2 * k + 1, 1024 * (k * 7 % 20) + 300, data=bytes([0x41 + k]) * 1200).request(3, 2 * k + 2)
    yield "a flush after each write, over several laps of the ring", one.request(0, 41, 0, 22 * 1024).request(2, 42)
    two = c().go()
    for k in range(4):
        for i in range(5):
            two.request(1, 10 * k + i + 1, 1024 * (3 * k + i), data=bytes([0x41 + 5 * k + i]) * 1024, alone=i == 0)
        two.request(3, 10 * k + 6, alone=False)
    yield "five writes and a flush sent together", two.request(0, 50, 0, 16 * 1024).request(2, 51)
    three = c().go().request(4, 1, 1024 * 9, 2048, flags=1)
    for k in range(4):
        three.request(1, 2 * k + 2, 1024 * k + 700, data=bytes([0x41 + k]) * 3000, flags=1).request(6, 2 * k + 3, 1024 * k + 900, 600, flags=1)
    yield "changes with FUA", three.request(0, 10, 0, 8 * 1024).request(2, 11)
    yield "the client ends while it waits", c().go().request(1, 1, 0, data=b"A" * 1024).request(1, 2, 1024, data=b"B" * 1024)
    yield "wrong on purpose: the second of two answers is missing", c().go().request(1, 1, 0, data=b"A" * 1024).request(1, 2, 1024, data=b"B" * 1024).request(2, 3)


def stops():
    c = Connection
    one = c().go()
    for k in range(6):
        one.request(1, 2 * k + 1, 1024 * (2 * k) + 300, data=bytes([0x41 + k]) * 2500 if k < 5 else b"Z" * 1024).request(3, 2 * k + 2)
    yield "writes over parts of blocks, each with a flush", one.request(2, 99)
    two = c().go()
    for k in range(12):
        two.request(1, k + 1, 1024 * (k * 5 % 10), data=bytes([0x41 + k]) * 6144)
        if k % 4 == 3:
            two.request(3, 100 + k)
    yield "writes of as many blocks as one handle has credits, a flush after each fourth", two.request(2, 99)
    three = c().go()
    for k in range(4):
        three.request(1, 3 * k + 1, 1024 * k + 500, data=bytes([0x41 + k]) * 3000)
        three.request(6, 3 * k + 2, 1024 * k + 700, 900 + k, flags=k % 2)
        three.request(1, 3 * k + 3, 1024 * (k + 3), data=bytes([0x61 + k]) * 4096, flags=1 - k % 2)
    yield "writes and zeros, each third with FUA", three.request(2, 99)
    yield "wrong on purpose: a write over more blocks than one handle has credits is never torn", c().go().request(1, 1, 0, data=b"A" * 9000).request(2, 99)


if __name__ == "__main__":
    folder = sys.argv[1]
    with open(folder + "/streams.rows", "w") as f:
        f.write("# What a client sends, what a server answers, and what it leaves: by the model in models/serve_rows.py. Blocks have 1024 bytes,\n"
                "# and a handle 6 credits at most. Where an answer waits for a commit, or a request is for\n# 65536 bytes, no request follows whose answer might overtake it.\nrows streams\n")
        for name, c in streams():
            wanted = c.wanted()
            if name.startswith("wrong on purpose"):
                wanted = wanted.replace(spell(struct.pack(">IIQ", 0x67446698, 0, 7))[1:], spell(struct.pack(">IIQ", 0x67446698, 5, 7))[1:])
            f.write("\n== %s\n%s\n-->\n%s\n" % (name, c.given(), wanted))
    with open(folder + "/waits.rows", "w") as f:
        f.write("# A client that sends more only once it has all answers to what it sent.\nrows waits\n")
        for name, c in waits():
            wanted = c.wanted()
            if name.startswith("wrong on purpose"):
                wanted = wanted.replace(spell(c.out[-16:])[1:], "", 1)
            f.write("\n== %s\n%s\n-->\n%s\n" % (name, c.given_apart(), wanted))
    with open(folder + "/stops.rows", "w") as f:
        f.write("# The device stops at each of its writes: what an opening then finds is what the writes of the client leave, up to one of them that\n"
                "# stands no earlier than the last flush that was answered, as long as they were answered without an error.\nrows stops\n")
        for name, c in stops():
            f.write("\n== %s\n%s\n-->\ntorn=none lost=none enough=true\n" % (name, c.given()))
