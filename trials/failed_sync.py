#!/usr/bin/env -S python3 -B
"""A sync that fails, and then a recovery that is cut off: shows whether half of a transaction is left.

usage: failed_sync.py [--program PATH]

After a sync that failed the system may go on to show what its disk lacks, and answer Ok to the next sync. Here a log and its home area
lie on two ext4 file systems, each on a loop device over a file in a memory file system. The page behind one block of such a file is
taken away and the memory file system filled, so that a write of this block fails, as on a disk that refuses a sector:

1. the block of the log where a commit block goes is taken away: `jbench apply` commits a transaction of 8 blocks, and its last sync
   fails (`refused 2 Device`). The commit block is in the page cache, and not on the disk;
2. the log's disk works again, but 4 of the 8 blocks of the home area are taken away, and `jbench recover` fails when it brings the
   transaction home, with some of the blocks on the disk;
3. the power goes away: what the disks have is copied, both disks work again, and `jbench recover` opens the copies.

What is left has to be all of the transaction or nothing. Then the same again with a log whose disk does not work again: `jbench recover`
has to be refused before it writes home. The program is `./jbench`, which is built first, or the one at PATH. Run it by hand, as root:
it needs losetup, mount, mke2fs, filefrag and fallocate.
"""
import json
import re
import shutil
import subprocess
import sys
import tempfile
from pathlib import Path

TOP = Path(__file__).resolve().parent.parent
BLOCK = 4096
BLOCKS = range(20, 36, 2)  # the blocks of the transaction, apart, since a loop device hides that a longer write fails in its midst
COMMIT_PLACE = 10  # after the superblock: a descriptor, 8 copies, the commit block
OLD, NEW = b"\x00" * BLOCK, b"\x77" * BLOCK


def run(*words, check=True):
    done = subprocess.run([str(word) for word in words], capture_output=True, text=True)
    if check and done.returncode:
        raise SystemExit(f"{' '.join(map(str, words))}\n{done.stdout}{done.stderr}")
    return done


class Disk:
    """An ext4 file system on a loop device over a file in a memory file system of its own."""

    def __init__(self, folder, name):
        self.memory, self.mounted = folder / f"{name}.memory", folder / f"{name}.mounted"
        self.memory.mkdir()
        self.mounted.mkdir()
        run("mount", "-t", "tmpfs", "-o", "size=32m", "tmpfs", self.memory)
        self.image, self.filler = self.memory / "image", self.memory / "filler"
        with open(self.image, "wb") as image:
            image.truncate(24 << 20)
        run("mke2fs", "-q", "-F", "-t", "ext4", "-b", BLOCK, "-O", "^has_journal", self.image)
        run("mount", "-o", "loop", self.image, self.mounted)

    def take_away(self, path, blocks):
        """Takes away the pages behind these blocks of a file, and fills the memory file system."""
        run("sync", "-f", path)
        places = physical(path)
        for block in blocks:
            run("fallocate", "--punch-hole", "--offset", places[block] * BLOCK, "--length", BLOCK, self.image)
        self.fill()

    def fill(self):
        with open(self.filler, "wb", buffering=0) as filler:
            try:
                while True:
                    filler.write(bytes(BLOCK))
            except OSError:
                pass

    def works_again(self):
        self.filler.unlink(missing_ok=True)

    def after_power_loss(self, to):
        """What the disk has now, mounted at another place."""
        shutil.copyfile(self.image, to.with_suffix(".image"))
        to.mkdir()
        run("mount", "-o", "loop", to.with_suffix(".image"), to)

    def close(self):
        run("umount", self.mounted, check=False)
        run("umount", self.memory, check=False)


def physical(path):
    """The block of the file system at which each block of a file lies."""
    places = {}
    for line in run("filefrag", "-b4096", "-v", path).stdout.splitlines():
        found = re.match(r"\s*\d+:\s*(\d+)\.\.\s*(\d+):\s*(\d+)\.\.", line)
        if found:
            first, last, place = map(int, found.groups())
            places |= {first + k: place + k for k in range(last - first + 1)}
    return places


def counted(home):
    """How many blocks of the transaction are there, and how many are as before."""
    with open(home, "rb") as file:
        blocks = []
        for block in BLOCKS:
            file.seek(block * BLOCK)
            blocks.append(file.read(BLOCK))
    return blocks.count(NEW), blocks.count(OLD)


def told(name, done):
    print(f"{name}: exit status {done.returncode}, {(done.stdout + done.stderr).strip().splitlines()[-1:]}")


def attempt(program, folder, log_works_again):
    """The whole course. The answer is whether what is left is all of the transaction or nothing."""
    logs, homes = Disk(folder, "log"), Disk(folder, "home")
    try:
        log, home, script = logs.mounted / "log", homes.mounted / "home", folder / "script"
        writes = [["write", 1, block, "77" * BLOCK] for block in BLOCKS]
        script.write_text(json.dumps({"block": BLOCK, "length": 64, "ops": [["start", 1, 8], *writes, ["stop", 1], ["request", 1], ["commit"]]}))
        run(program, "format", log, home, "--block", BLOCK, "--length", 64)
        home.write_bytes(bytes(home.stat().st_size))  # no hole, whatever format left
        logs.take_away(log, [COMMIT_PLACE])
        told("apply over a log that fails", run(program, "apply", log, home, script, "--stay", check=False))
        if log_works_again:
            logs.works_again()
        homes.take_away(home, BLOCKS[1::2])
        told("recover over a home area that fails" if log_works_again else "recover over both", run(program, "recover", log, home, check=False))
        logs.after_power_loss(folder / "log.after")
        homes.after_power_loss(folder / "home.after")
        told("recover after the loss of power", run(program, "recover", folder / "log.after" / "log", folder / "home.after" / "home"))
        new, old = counted(folder / "home.after" / "home")
        print(f"{new} blocks of the transaction are there, {old} are as before")
        return (new, old) in ((len(BLOCKS), 0), (0, len(BLOCKS)))
    finally:
        for name in ("log.after", "home.after"):
            run("umount", folder / name, check=False)
        logs.close()
        homes.close()


def main(words):
    program = Path(words[1]).resolve() if words[:1] == ["--program"] else TOP / "jbench"
    if words[:1] != ["--program"]:
        subprocess.run([program, "build"], check=True)
    right = True
    for log_works_again in (True, False):
        with tempfile.TemporaryDirectory() as folder:
            right &= attempt(program, Path(folder), log_works_again)
    print("right" if right else "wrong: half of a transaction is left")
    return 0 if right else 1


if __name__ == "__main__":
    sys.exit(main(sys.argv[1:]))
