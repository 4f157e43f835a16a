#!/usr/bin/env -S python3 -B
"""Whether a long change holds up others, and whether it goes on for nobody.

    serve_long.py [--mib M] [--at FOLDER] [--program PATH]

HOME has M MiB (default: 1024) in a sparse file, and blocks of 4096 bytes; LOG has 64 blocks, so that one handle writes few of them. A client
has M MiB zeroed by one request, sends a read and a write of 4096 bytes each, and waits for the read: it has to be answered before the
zeros. Then the client leaves without saying so, and the server has to end within two seconds. The next server's client reads
where that write should be: nothing that came after the zeros may be there. A line tells how long the read and the end took. Then the same
with a trim of what was written.

Last, whether short writes that wait keep the memory of long ones: while zeros are written, a client sends short writes, one more in each of
30 rounds, and a long one after them. The server may then have at most 100 MiB more than after the first rounds. A line tells how much.

The files lie in a folder of FOLDER (default: that for temporary files), which is deleted. The program is `./jbench`, or the one at PATH.
"""
import argparse
import re
import struct
import tempfile
import time
from pathlib import Path

from served import Volume, add_program

BLOCK, LENGTH = 4096, 64
READ, WRITE, DISCONNECT, FLUSH, TRIM, ZEROES = 0, 1, 2, 3, 4, 6
PART = 1 << 20
MOST, SHORT = 32 * PART, 65536  # bytes of the longest request, and of one that is handed to another task
MARK = b"after" + bytes(BLOCK - 5)


class Client:
    """A client of NBD that looks at answers as they come."""

    def __init__(self, connected):
        self.socket, self.input = connected, connected.makefile("rb")
        assert self.input.read(18)[:8] == b"NBDMAGIC"
        self.socket.sendall(struct.pack(">I8sII", 1, b"IHAVEOPT", 1, 0))
        self.size = struct.unpack(">QH124x", self.input.read(134))[0]

    def send(self, command, cookie, at=0, count=0, data=b""):
        self.socket.sendall(struct.pack(">IHHQQI", 0x25609513, 0, command, cookie, at, count) + data)

    def hear(self, count=0):
        """The next answer's cookie, and its bytes, if it is to a read of so many."""
        magic, error, cookie = struct.unpack(">IIQ", self.input.read(16))
        assert (magic, error) == (0x67446698, 0), (magic, error)
        return cookie, self.input.read(count)

    def do(self, command, at=0, count=0, data=b""):
        self.send(command, 9, at, count, data)
        return self.hear(count if command == READ else 0)[1]

    def leave(self, says=True):
        if says:
            self.send(DISCONNECT, 0)
        self.input.close()
        self.socket.close()


def try_one(volume, command, name):
    server, connected = volume.serve()
    client = Client(connected)
    for at in range(0, client.size, PART):
        if command == TRIM and at % (64 << 20) == 0:
            client.do(WRITE, at, PART, b"A" * PART)  # what is trimmed keeps copies
    last = client.size - BLOCK
    begun = time.monotonic()
    client.send(command, 1, 0, client.size)
    client.send(READ, 2, last - PART, BLOCK)
    client.send(WRITE, 3, last, BLOCK, MARK)
    cookie, _ = client.hear(BLOCK)
    waited = time.monotonic() - begun
    assert cookie == 2, "the long change was answered before the read"
    left = time.monotonic()
    client.leave(says=False)
    status = server.wait()
    ended = time.monotonic() - left
    assert status == 0 or "Broken pipe" in volume.said.read_text(), f"status {status}: {volume.said.read_text()}"
    assert ended < 2, f"the server went on for {ended:.1f} s"
    server, connected = volume.serve()
    client = Client(connected)
    assert client.do(READ, last, BLOCK) != MARK, "what came after the change is there"
    client.leave()
    assert server.wait() == 0
    print(f"{name}: the read waited {waited * 1000:.1f} ms, the end {ended * 1000:.0f} ms")


def resident(process):
    """The memory of a process in MiB."""
    status = Path(f"/proc/{process.pid}/status").read_text()
    return int(re.search(r"^VmRSS:\s+(\d+)", status, re.MULTILINE)[1]) >> 10


def try_memory(volume):
    server, connected = volume.serve()
    client = Client(connected)
    found = []
    for short in range(30):
        client.send(ZEROES, 1, 0, MOST)
        for k in range(short):
            client.send(WRITE, 2, MOST + k * SHORT, SHORT, bytes(SHORT))
        left = MOST - short * SHORT
        client.send(WRITE, 3, 0, left, bytes(left))
        for _ in range(short + 2):
            client.hear()
        found.append(resident(server))
    client.leave()
    assert server.wait() == 0
    begun, most = max(found[:3]), max(found)
    assert most <= begun + 100, f"memory grew from {begun} to {most} MiB"
    print(f"short writes beside long ones: {begun} MiB of memory after 3 rounds, at most {most} in 30")


def main():
    parser = argparse.ArgumentParser(description=__doc__, formatter_class=argparse.RawDescriptionHelpFormatter)
    parser.add_argument("--mib", type=int, default=1024)
    parser.add_argument("--at", default=None)
    add_program(parser)
    given = parser.parse_args()
    with tempfile.TemporaryDirectory(dir=given.at) as folder:
        volume = Volume(given.program, folder, BLOCK, LENGTH, given.mib << 20 >> 12, sparse=True)
        try_one(volume, ZEROES, "zeros")
        try_one(volume, TRIM, "a trim")
    with tempfile.TemporaryDirectory(dir=given.at) as folder:
        try_memory(Volume(given.program, folder, BLOCK, 16384, 16384, sparse=True))


if __name__ == "__main__":
    main()
