#!/usr/bin/python3 -B
"""What a crash may leave of the changes that one client sent one after another: the first of them, in order. This is the judge of that.

    prefix.py [COUNT] [SEED]     tries the judge on so many made up lists of changes (default: 100 from seed 1)

There has to be one k so that each block holds what the first k changes made of it. A write of more blocks than the capacity counts as one
change for each handle that makes it. A block that was trimmed last has a value that home may have: the one at the opening, or one that any
of the first k changes wrote. A write of a part of such a block keeps zeros beside it, or such a value.

The judge has to take what the first changes make, for each k. It has to refuse a volume without one of them, one with two neighbours in the
wrong order, one with a part of a write, one with bytes that no change wrote, and one without a change that was covered.
"""
import collections
import itertools
import random
import struct
import sys

SECTOR = 512
COUNTED = itertools.count(1)


def stamped(at, count):
    """Bytes for a write from `at` on that no other write has: each 16 of them name it, and the sector they are for."""
    number, sectors = next(COUNTED), range(at // SECTOR, -(-(at + count) // SECTOR))
    return b"".join(struct.pack(">QQ", number, k) * (SECTOR // 16) for k in sectors)[at % SECTOR :][:count]


def differing(some, others):
    """In which bytes two pieces of one length differ: a number in which the lowest bit of each such byte is set."""
    bits = int.from_bytes(some, "little") ^ int.from_bytes(others, "little")
    for shift in (4, 2, 1):
        bits |= bits >> shift
    return bits and bits & int.from_bytes(b"\1" * len(some), "little")


def least(differences):
    """Those that have none of the others as a part. No others matter: whatever is written, they are no nearer to nothing than these."""
    kept = []
    for one in sorted(set(differences), key=int.bit_count):
        if all(part & ~one for part in kept):
            kept.append(one)
    return kept


class Block:
    """One block, and each value that it may have, as the difference from what was found."""

    def __init__(self, held, found):
        self.found, self.is_trimmed = found, False
        self.now = self.home = [differing(held, found)]

    def write(self, begin, data):
        below = self.now + [differing(bytes(len(self.found)), self.found)] * self.is_trimmed
        rest = ~((1 << 8 * len(data)) - 1 << 8 * begin)
        new = differing(data, self.found[begin : begin + len(data)]) << 8 * begin
        self.now, self.is_trimmed = least(one & rest | new for one in below), False
        self.home = least(self.home + self.now)

    def trim(self):
        self.now, self.is_trimmed = self.home, True


class Changes:
    """Changes in the order in which they were sent, over a volume that held these bytes. Each is one piece, or one for each of its handles;
    a number stands for so many pieces."""

    def __init__(self, held, block, capacity):
        self.held, self.block, self.capacity = bytes(held), block, capacity
        self.pieces, self.nearest = [], ""

    def write(self, at, data):
        """The answer is the number of its last piece."""
        while data:
            some = data[: self.capacity * self.block - at % self.block]
            self.pieces.append((at, len(some), some))
            at, data = at + len(some), data[len(some) :]
        return len(self.pieces)

    def trim(self, at, count):
        """A trim is one piece, though it may have several handles: each of its blocks may keep its value all the same. The answer is its
        number, or 0 where it has no whole block: then it changes nothing, and that it was done tells nothing of the changes before it."""
        self.pieces.append((at, count, None))
        return len(self.pieces) if any(self.parts(at, count, None)) else 0

    def parts(self, at, count, data):
        """The blocks of a piece. With each go the place of its bytes in the block, and the bytes; or nothing, if it is trimmed."""
        size = self.block
        if data is None:
            yield from ((b, 0, None) for b in range(-(-at // size), (at + count) // size))
        else:
            for b in range(at // size, -(-(at + count) // size)):
                begin = max(at, b * size)
                yield b, begin - b * size, data[begin - at : (b + 1) * size - at]

    def numbers(self, found):
        """Each number after which a volume may hold what is found. Where there is none, `nearest` tells what comes next to it."""
        block_of = lambda volume, b: volume[b * self.block : (b + 1) * self.block]
        blocks, wrong = {}, {b for b in range(len(found) // self.block) if block_of(self.held, b) != block_of(found, b)}
        numbers, nearest = [] if wrong else [0], (len(wrong), 0, sorted(wrong))
        for number, piece in enumerate(self.pieces, 1):
            for b, begin, data in self.parts(*piece):
                block = blocks[b] = blocks.get(b) or Block(block_of(self.held, b), block_of(found, b))
                block.trim() if data is None else block.write(begin, data)
                (wrong.discard if 0 in block.now else wrong.add)(b)
            if not wrong:
                numbers.append(number)
            elif len(wrong) < nearest[0]:
                nearest = (len(wrong), number, sorted(wrong))
        self.nearest = f"after {nearest[1]} pieces {nearest[0]} blocks are wrong: {nearest[2][:20]}"
        return numbers

    def verdict(self, found, covered):
        """`whole`, where it holds the first pieces up to one from `covered` on; `lost`, where it holds fewer; or else `torn`."""
        numbers = self.numbers(found)
        enough = [n for n in numbers if n >= covered]
        return ("whole", enough[0]) if enough else ("lost", numbers[-1]) if numbers else ("torn", 0)


# ---- a trial of the judge

BLOCK, BLOCKS, CAPACITY, PIECES = 1024, 24, 6, 30


def made_up(draw, trims):
    """A list of changes; so great a part of them are trims."""
    size = BLOCK * BLOCKS
    changes = Changes(stamped(0, size), BLOCK, CAPACITY)
    while len(changes.pieces) < PIECES:
        at = draw.randrange(size) if draw.random() < 0.5 else draw.randrange(BLOCKS) * BLOCK
        count = min(draw.randrange(1, draw.choice((2, 4, 10)) * BLOCK), size - at)
        if draw.random() < trims:
            changes.trim(at, count)
        else:
            changes.write(at, bytes(count) if draw.random() < 0.2 else stamped(at, count))
    return changes


def done(changes, pieces, draw):
    """What these pieces make of the volume."""
    now, trimmed = bytearray(changes.held), set()
    values = {b: [changes.held[b * BLOCK : (b + 1) * BLOCK]] for b in range(BLOCKS)}
    for piece in pieces:
        for b, begin, data in changes.parts(*piece):
            place = slice(b * BLOCK, (b + 1) * BLOCK)
            if data is None:
                trimmed.add(b)
                continue
            if b in trimmed:
                now[place] = draw.choice([*values[b], bytes(BLOCK)])
                trimmed.remove(b)
            now[b * BLOCK + begin : b * BLOCK + begin + len(data)] = data
            values[b].append(bytes(now[place]))
    for b in trimmed:
        now[b * BLOCK : (b + 1) * BLOCK] = draw.choice(values[b])
    return bytes(now)


def spoiled(changes, k, draw):
    """Volumes that are not what the first k pieces make, if what was spoiled still shows: each with its kind."""
    first = changes.pieces[:k]
    at, count, data = first[-1]
    j, some = draw.randrange(k), draw.randrange(count)
    yield "left out", done(changes, first[:j] + first[j + 1 :], draw)
    for j in range(1, k):
        if first[j - 1][0] < sum(first[j][:2]) and first[j][0] < sum(first[j - 1][:2]):
            yield "swapped", done(changes, [*first[: j - 1], first[j], first[j - 1], *first[j + 1 :]], draw)
    yield "torn", done(changes, [*first[:-1], (at, some, data[:some])], draw)
    yield "torn", done(changes, [*first[:-1], (at + some, count - some, data[some:])], draw)


def try_judge(draw, lists):
    """Tries the judge, and counts what it refused. A wrong judge ends the program."""
    refused = collections.Counter()

    def expect(is_right, what):
        if not is_right:
            raise SystemExit(f"prefix.py: the judge is wrong on a volume that is {what}")

    changes, most = Changes(bytes(BLOCK), BLOCK, CAPACITY), BLOCK * CAPACITY
    expect([b for b, _, _ in changes.parts(1, 3 * BLOCK, None)] == [1, 2], "trimmed")
    changes.write(1, bytes(2 * most))
    expect([piece[:2] for piece in changes.pieces] == [(1, most - 1), (most, most), (2 * most, 1)], "written by several handles")
    for _ in range(lists):
        changes = made_up(draw, 0.3)
        for k in range(len(changes.pieces) + 1):
            found = bytearray(done(changes, changes.pieces[:k], draw))
            expect(k in changes.numbers(found), "whole")
            found[draw.randrange(0, len(found), 16)] = 0xFF  # no number begins so
            expect(not changes.numbers(found), "foreign")
            refused["foreign"] += 1
        changes = made_up(draw, 0)
        volumes = [done(changes, changes.pieces[:k], draw) for k in range(len(changes.pieces) + 1)]
        for k in range(2, len(volumes)):
            is_lost = volumes[k - 1] not in volumes[k:]
            expect(changes.verdict(volumes[k - 1], k)[0] == ("lost" if is_lost else "whole"), "lost")
            refused["lost"] += is_lost
            for kind, found in spoiled(changes, k, draw):
                expect(bool(changes.numbers(found)) == (found in volumes), kind)
                refused[kind] += found not in volumes
    expect(all(refused[kind] for kind in ("left out", "swapped", "torn", "foreign", "lost")), "none at all")
    return refused


if __name__ == "__main__":
    count, seed = (int(word) for word in [*sys.argv[1:], *("100", "1")[len(sys.argv) - 1 :]])
    refused = try_judge(random.Random(seed), count)
    print("the judge refused " + ", ".join(f"{number} {kind}" for kind, number in sorted(refused.items())))
