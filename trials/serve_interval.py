#!/usr/bin/env -S python3 -B
"""Whether what no flush asks for is committed within the commit interval, and whether an idle server sleeps.

    serve_interval.py [--seconds S] [--at FOLDER] [--program PATH]

A server with `--commit-interval S` (default: 1) has a write answered, and is killed half a second after S seconds: the write has to be there
afterwards. Killed after a fifth of that, or with `--commit-interval 0`, the write may not be there, or the interval shows nothing. Then a
server has a write answered and is left alone for S seconds and a half: from then on no thread of it may run for three seconds.

The files lie in a folder of FOLDER (default: that for temporary files), which is deleted. The program is `./jbench`, or the one at PATH.
"""
import argparse
import tempfile
import time
from pathlib import Path

from served import Volume, add_program
from serve_long import READ, WRITE, Client

BLOCK = 4096
MARK = b"marked" + bytes(BLOCK - 6)


def switches(server):
    """How often the threads of a server have run."""
    files = Path(f"/proc/{server.pid}/task").glob("*/status")
    return sum(int(line.split()[1]) for file in files for line in file.read_text().splitlines() if "ctxt_switches" in line)


def is_kept(volume, interval, wait, at):
    """Writes a block, kills the server after some seconds, and tells whether the block is there."""
    server, connected = volume.serve("--commit-interval", str(interval))
    client = Client(connected)
    client.do(WRITE, at, BLOCK, MARK)
    time.sleep(wait)
    server.kill()
    server.wait()
    client.leave(says=False)
    server, connected = volume.serve()
    client = Client(connected)
    found = client.do(READ, at, BLOCK)
    client.leave()
    assert server.wait() == 0
    return found == MARK


def main():
    parser = argparse.ArgumentParser(description=__doc__, formatter_class=argparse.RawDescriptionHelpFormatter)
    parser.add_argument("--seconds", type=int, default=1)
    parser.add_argument("--at", default=None)
    add_program(parser)
    given = parser.parse_args()
    seconds = given.seconds
    with tempfile.TemporaryDirectory(dir=given.at) as folder:
        volume = Volume(given.program, folder, BLOCK, 4096, 1024)
        assert is_kept(volume, seconds, seconds + 0.5, 0), "a write was lost after the interval"
        assert not is_kept(volume, seconds, seconds / 5, BLOCK), "a write was committed before the interval"
        assert not is_kept(volume, 0, seconds + 0.5, 2 * BLOCK), "a write was committed without an interval"
        server, connected = volume.serve("--commit-interval", str(seconds))
        client = Client(connected)
        client.do(WRITE, 0, BLOCK, MARK)
        time.sleep(2 * seconds + 0.5)
        before = switches(server)
        time.sleep(3)
        ran = switches(server) - before
        assert ran == 0, f"an idle server ran {ran} times in three seconds"
        client.leave()
        assert server.wait() == 0
    print("kept after the interval, lost before it; an idle server sleeps")


if __name__ == "__main__":
    main()
