#!/usr/bin/env python3
"""Makes a log that is full of copies, and a home area of zeros, as two files: something to recover.

usage: make_full_log.py LOG HOME BLOCKS SIZE

LOG gets BLOCKS blocks of SIZE bytes: a superblock that says that the log begins at block 1 with transaction 1, and after it
transactions of 200 copies each, up to the end of the ring. HOME gets twice as many blocks. Which block a copy is of comes from a
generator with a fixed seed: nine in ten copies are of a block that has none yet, the others of one that has.

The bytes are written by the format's own rules, with nothing of the journal: they are an input from outside.
"""
import random
import struct
import sys

MAGIC = 0xC03B3998
DESCRIPTOR, COMMIT, SUPERBLOCK = 1, 2, 4
SAME_UUID, LAST = 2, 8
UUID = b"\xaa" * 16
COPIES = 200


def header(kind, sequence):
    return struct.pack(">III", MAGIC, kind, sequence)


def superblock(size, blocks):
    fields = struct.pack(">IIIII", size, blocks, 1, 1, 1)  # s_blocksize, s_maxlen, s_first, s_sequence, s_start
    fields += struct.pack(">IIII", 0, 0, 1, 0)  # s_errno, compatible, incompatible (revoke), read-only compatible
    return (header(SUPERBLOCK, 0) + fields + UUID + struct.pack(">I", 1)).ljust(size, b"\0")


def tags_of(blocks):
    tags = b""
    for i, block in enumerate(blocks):
        flags = (SAME_UUID if i else 0) | (LAST if i + 1 == len(blocks) else 0)
        tags += struct.pack(">IHH", block, 0, flags) + (b"" if i else UUID)
    return tags


def transaction(sequence, blocks, size, contents):
    """The log blocks of one transaction: descriptors with their copies, and a commit block."""
    most = (size - 12 - 16 - 16) // 8  # a descriptor is closed when fewer than 24 bytes are left
    log = []
    for at in range(0, len(blocks), most):
        part = blocks[at : at + most]
        log.append((header(DESCRIPTOR, sequence) + tags_of(part)).ljust(size, b"\0"))
        log.extend(contents(block, sequence) for block in part)
    log.append(header(COMMIT, sequence).ljust(size, b"\0"))
    return log


def main():
    if len(sys.argv) != 5:
        sys.exit(__doc__)
    log_path, home_path, blocks, size = sys.argv[1], sys.argv[2], int(sys.argv[3]), int(sys.argv[4])
    home_blocks = 2 * blocks
    chance = random.Random(20260101)
    fresh = list(range(home_blocks))
    chance.shuffle(fresh)
    used = []

    def next_block():
        if used and chance.random() < 0.1:
            return chance.choice(used)
        used.append(fresh.pop())
        return used[-1]

    def contents(block, sequence):
        return struct.pack(">II", block, sequence) * (size // 8)

    with open(log_path, "wb") as log:
        log.write(superblock(size, blocks))
        left, sequence = blocks - 1, 1
        while left > 0:
            count = COPIES
            while True:
                text = transaction(sequence, [0] * count, size, lambda b, s: b"")
                if len(text) <= left:
                    break
                count -= 1
            chosen = []
            while len(chosen) < count:
                block = next_block()
                if block not in chosen:
                    chosen.append(block)
            text = transaction(sequence, chosen, size, contents)
            log.write(b"".join(text))
            left -= len(text)
            sequence += 1
    with open(home_path, "wb") as home:
        home.truncate(home_blocks * size)


main()
