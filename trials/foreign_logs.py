#!/usr/bin/env -S python3 -B
"""Logs that other writers of the format leave, recovered by e2fsck and by `jbench recover`: both have to bring home the same.

usage: foreign_logs.py [COUNT] [SEED]               logs of debugfs (default: 20 from seed 1)
       foreign_logs.py --kernel [COUNT] [SEED]      logs of the running kernel
       foreign_logs.py --rows WORDS ..              one log of debugfs, as rows spell it, with what e2fsck makes of home

A line is printed for each log: what `jbench recover` says, and whether each block that the log names then reads as e2fsck leaves
it. Before both recoveries these blocks are filled, so that one that is not brought home shows as well.

debugfs: `jo`, `jw` and `jc` write each transaction, in a session of its own. (Within one session debugfs loses the commit block of
a transaction that has blocks and revokes, where another one follows.) Now and then e2fsck recovers in between, so that blocks of
older transactions stand after those that count. The first transaction is a revoke of a block that no other names, since a log
without revokes lacks the one feature that is needed.

The kernel: files are written and removed on an ext3 file system on a loop device, and the image is read while it is mounted, behind
a sync. The feature of revokes, which the kernel has set in memory alone, is set in the log that is recovered. Blocks of the file
system's own tables, which e2fsck needs, are not filled. This needs root.

With --rows each word is a transaction, as `3000=11,3001=22,-3002`: writes of blocks that begin with these bytes, and revokes. At
the word `replay` e2fsck recovers in between.

Run it by hand: it needs e2fsprogs (mke2fs, debugfs, e2fsck).
"""
import os
import random
import re
import subprocess
import sys
import tempfile
from pathlib import Path

TOP = Path(__file__).resolve().parent.parent
sys.path.append(str(TOP / "models"))

from openings import scan, word

HOME = 4096
FIRST, LAST = 3000, 3039


def run(*words, text=None):
    done = subprocess.run([str(word) for word in words], input=text, capture_output=True, text=True)
    return done.returncode, done.stdout, done.stderr


def make(image, size):
    """A file system of so many blocks of this size, with a log of 1024 of them."""
    image.write_bytes(b"")
    os.truncate(image, HOME * size)
    features = "^metadata_csum,^64bit,^resize_inode,^dir_index,has_journal"
    status, _, err = run("mke2fs", "-q", "-F", "-t", "ext3", "-b", size, "-U", "01020304-0506-0708-090a-0b0c0d0e0f10",
                         "-O", features, "-J", f"size={size // 1024}", "-N", 64, image)
    assert status == 0, err


def write(image, folder, size, writes, revokes):
    """One transaction, in a session of its own: writes as (block, its first bytes, its last byte), and revokes."""
    words = "jw"
    if writes:
        (folder / "data").write_bytes(b"".join(front.ljust(size, bytes([rest])) for _, front, rest in writes))
        words += " -b " + ",".join(str(block) for block, _, _ in writes)
    if revokes:
        words += " -r " + ",".join(map(str, revokes))
    if writes:
        words += f" {folder / 'data'}"
    _, out, err = run("debugfs", "-w", image, text=f"jo\n{words}\njc\n")
    assert ":" not in err.replace("debugfs 1.", ""), (words, err)


def replay(image):
    """e2fsck brings home what the log has."""
    status, out, err = run("e2fsck", "-y", "-E", "journal_only", image)
    assert status in (0, 1), out + err


def journal_of(image, log):
    run("debugfs", "-R", f"dump <8> {log}", image)


def blocks_of(path, size):
    data = path.read_bytes()
    return [data[at : at + size] for at in range(0, len(data), size)]


def draw_transaction(draw):
    count = draw.choice((0, 1, 1, 2, 3, 8))
    writes = []
    for block in draw.sample(range(FIRST, LAST + 1), count):
        front = bytes.fromhex("c03b3998") + draw.randbytes(4) if draw.random() < 0.15 else draw.randbytes(4)
        writes.append((block, front, draw.randrange(256)))
    taken = {block for block, _, _ in writes}
    free = [block for block in range(FIRST, LAST + 1) if block not in taken]
    revokes = draw.sample(free, draw.choice((0, 0, 1, 2, 5)))
    return (writes, revokes) if writes or revokes else ([], draw.sample(free, 1))


def by_debugfs(image, folder, size, draw):
    make(image, size)
    write(image, folder, size, [], [FIRST - 1])
    for _ in range(draw.randrange(1, 12)):
        write(image, folder, size, *draw_transaction(draw))
        if draw.random() < 0.15:
            replay(image)
            write(image, folder, size, [], [FIRST - 1])


def by_kernel(image, folder, size, draw):
    make(image, size)
    mounted = folder / "mounted"
    mounted.mkdir(exist_ok=True)
    status, _, err = run("mount", "-o", f"loop,data={draw.choice(('journal', 'ordered'))}", image, mounted)
    assert status == 0, err
    try:
        for _ in range(draw.randrange(2, 14)):
            change_files(mounted, size, draw)
        os.sync()
        left = image.read_bytes()
    finally:
        run("umount", mounted)
    image.write_bytes(left)


def change_files(mounted, size, draw):
    for name in "abcdefg":
        file = mounted / name
        if draw.random() < 0.5:
            front = bytes.fromhex("c03b3998") if draw.random() < 0.3 else b""
            file.write_bytes(front + draw.randbytes(draw.randrange(30 * size)))
        elif draw.random() < 0.4 and file.exists():
            file.unlink()
    if draw.random() < 0.3:
        (mounted / f"folder{draw.randrange(10**6)}").mkdir()
    if draw.random() < 0.7:
        os.sync()


def last_of_journal(image):
    """The last block that the journal's file takes."""
    _, out, _ = run("debugfs", "-R", "stat <8>", image)
    return max(int(number) for number in re.findall(r"\d+", out.partition("BLOCKS:")[2].partition("TOTAL")[0]))


def compare(seed, folder, writer, jbench):
    draw = random.Random(seed)
    size = draw.choice((1024, 1024, 1024, 2048, 4096))
    image, ours, log = folder / "image", folder / "home", folder / "log"
    writer(image, folder, size, draw)
    journal_of(image, log)
    area = blocks_of(log, size)
    area[0] = area[0][:0x28] + (1).to_bytes(4, "big") + area[0][0x2C:]
    log.write_bytes(b"".join(area))
    _, copies, revokes = scan(area, HOME) if word(area[0], 0x1C) else (0, [], [])
    named = {block for _, block, *_ in copies + revokes}
    home = blocks_of(image, size)
    for block in named:
        if block > last_of_journal(image):
            home[block] = b"\x5a" * size
    image.write_bytes(b"".join(home))
    ours.write_bytes(image.read_bytes())
    status, out, err = run(jbench, "recover", log, ours)
    replay(image)
    of_file_system = 1 if size == 1024 else 0  # its superblock, in which e2fsck notes that it was there
    theirs, got = blocks_of(image, size), blocks_of(ours, size)
    same = all(theirs[block] == got[block] for block in named - {of_file_system})
    told = f"{len(copies)} copies, {len(revokes)} revokes, {(out + err).strip()}"
    return f"seed {seed}, blocks of {size}: {told}, {'as e2fsck' if same and status == 0 else 'NOT AS E2FSCK'}"


# ---- rows


def spelled(block, size):
    """A block in the words of rows."""
    number = lambda at: int.from_bytes(block[at : at + 4], "big")
    kind = number(4) if number(0) == 0xC03B3998 else None
    if kind == 4:
        return f"super s_sequence={number(0x18)} s_start={number(0x1c)} @0x30={block[0x30:0x40].hex()}"
    if kind not in (1, 2, 5):
        return f"bytes={block.rstrip(bytes(1)).hex()}"
    words, at = [f"{ {1: 'descriptor', 2: 'commit', 5: 'revoke'}[kind]}={number(8)}"], 12
    if kind == 5:
        words.append(f"used={number(12)}")
        words += [str(number(at)) for at in range(16, number(12), 4)]
        at = number(12)
    while kind == 1:
        flags = number(at + 4)
        words.append(f"{number(at)}/{flags:04x}")
        words += [] if flags & 2 else ["4*0"]
        at += 8 if flags & 2 else 24
        if flags & 8:
            break
    rest = [number(each) for each in range(at, len(block.rstrip(bytes(1))), 4)]
    while rest:
        zeros = next((i for i, each in enumerate(rest) if each), len(rest))
        words.append(f"{zeros}*0" if zeros > 1 else f"0x{rest[0]:08x}" if rest[0] else "0")
        rest = rest[max(zeros, 1) :]
    return " ".join(words)


def rows(words):
    with tempfile.TemporaryDirectory() as name:
        folder = Path(name)
        image, log, size = folder / "image", folder / "log", 1024
        make(image, size)
        for word in words:
            parts = [part.partition("=") for part in word.split(",")]
            if word == "replay":
                replay(image)
                continue
            writes = [(int(block), bytes.fromhex(front), 0) for block, equals, front in parts if equals]
            write(image, folder, size, writes, [int(block[1:]) for block, equals, _ in parts if not equals])
        journal_of(image, log)
        area = blocks_of(log, size)
        replay(image)
        print(f"device log={len(area)} home={HOME}")
        for place, block in enumerate(area):
            if any(block):
                print(f"{place}: {spelled(block, size)}")
        print("-->")
        for place, block in enumerate(blocks_of(image, size)[FIRST - 1 : LAST + 1], FIRST - 1):
            if any(block):
                print(f"home {place} {block.rstrip(bytes(1)).hex()}")


def main():
    words = sys.argv[1:]
    if words[:1] == ["--rows"]:
        return rows(words[1:])
    writer = by_debugfs
    if words[:1] == ["--kernel"]:
        words, writer = words[1:], by_kernel
    count, seed = [int(text) for text in words] + [20, 1][len(words) :]
    run(TOP / "jbench", "build")
    with tempfile.TemporaryDirectory() as name:
        for each in range(seed, seed + count):
            print(compare(each, Path(name), writer, TOP / "jbench"), flush=True)


if __name__ == "__main__":
    main()
