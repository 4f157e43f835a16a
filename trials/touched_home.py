#!/usr/bin/env -S python3 -B
"""Whether the memory of `jbench serve` grows with the part of home that its client has touched.

    touched_home.py [--gib G] [--memory KIB] [--at FOLDER] [--program PATH]

HOME has G GiB (default: 1024) in a sparse file, and blocks of 4096 bytes. A client writes one block of each 2 MiB, with a flush after each
64th, so that every part of home is touched and its file takes a five-hundredth. Then it trims all of it, 2 MiB a request, likewise. The
program may have KIB of address space (default: 400,000), and each request has to succeed. A line for each quarter tells how many requests were
answered and the program's memory in KiB (VmRSS), which docs/COSTS.md bounds. The client disconnects, and the status has to be 0.

The files lie in a folder of FOLDER (default: that for temporary files), which is deleted. The program is `./jbench`, or the one at PATH.
"""
import argparse
import re
import struct
import tempfile
from pathlib import Path

from served import Volume, add_program

BLOCK, STEP = 4096, 2 << 20
WRITE, DISCONNECT, FLUSH, TRIM = 1, 2, 3, 4
MOST = 64  # requests that wait for their answers


class Client:
    """A client of NBD that waits for answers only once many are owed."""

    def __init__(self, connected):
        self.socket, self.input, self.owed = connected, connected.makefile("rb"), 0
        assert self.input.read(18)[:8] == b"NBDMAGIC"
        self.socket.sendall(struct.pack(">I8sII", 1, b"IHAVEOPT", 1, 0))
        self.size = struct.unpack(">QH124x", self.input.read(134))[0]

    def send(self, command, at=0, count=0, data=b""):
        self.socket.sendall(struct.pack(">IHHQQI", 0x25609513, 0, command, 0, at, count) + data)
        self.owed += 1
        while self.owed > MOST:
            self.hear()

    def hear(self):
        magic, error, _ = struct.unpack(">IIQ", self.input.read(16))
        assert (magic, error) == (0x67446698, 0), f"a request is refused: {error}"
        self.owed -= 1

    def hear_all(self):
        self.send(FLUSH)
        while self.owed:
            self.hear()


def touch(client, server, what, command, count, data):
    """Sends such a request for each part of home."""
    parts = client.size // STEP
    for part in range(parts):
        client.send(command, part * STEP, count, data)
        if part % MOST == MOST - 1:
            client.send(FLUSH)
        if part + 1 in [parts * quarter // 4 for quarter in (1, 2, 3, 4)]:
            client.hear_all()
            memory = re.search(r"VmRSS:\s+(\d+)", Path(f"/proc/{server.pid}/status").read_text())[1]
            print(f"{what}: {part + 1} of {parts} parts, {memory} KiB", flush=True)


def main():
    arguments = argparse.ArgumentParser()
    arguments.add_argument("--gib", type=int, default=1024)
    arguments.add_argument("--memory", type=int, default=400_000)
    arguments.add_argument("--at")
    add_program(arguments)
    told = arguments.parse_args()
    with tempfile.TemporaryDirectory(dir=told.at) as folder:
        volume = Volume(told.program, folder, BLOCK, 4096, (told.gib << 30) // BLOCK, sparse=True)
        server, connected = volume.serve(before=["bash", "-c", f'ulimit -v {told.memory}; exec "$@"', "serve"])
        client = Client(connected)
        touch(client, server, "writes", WRITE, BLOCK, b"\x5a" * BLOCK)
        touch(client, server, "trims", TRIM, STEP, b"")
        client.socket.sendall(struct.pack(">IHHQQI", 0x25609513, 0, DISCONNECT, 0, 0, 0))
        connected.close()
        status = server.wait()
        print(f"status {status}")
        return status


if __name__ == "__main__":
    raise SystemExit(main())
