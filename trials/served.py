#!/usr/bin/python3 -B
"""What the scripts around `jbench serve` share: a volume in two files, and its server with a socket as standard input and output. It wants
Debian's python3-libnbd.

    served.py SOCKET PROGRAM WORD..     runs that command for each connection to SOCKET, one after the other, as inetd does
"""
import contextlib
import re
import select
import socket
import subprocess
import sys
import threading
import time
from pathlib import Path

TOP = Path(__file__).resolve().parent.parent


def add_program(arguments):
    """The option that names the program."""
    arguments.add_argument("--program", default=TOP / "jbench", type=lambda path: Path(path).resolve())


class Volume:
    """A log and its home area in a folder, made anew; a sparse home area is a hole."""

    def __init__(self, program, folder, block, length, home, sparse=False):
        self.program, self.block, self.size = program, block, block * home
        self.log, self.home = Path(folder) / "log", Path(folder) / "home"
        self.said = Path(folder) / "said"
        words = [program, "format", self.log, self.home, "--block", str(block), "--length", str(length)]
        if sparse:
            with open(self.home, "wb") as file:
                file.truncate(self.size)
        subprocess.run([*words, "--keep-home"] if sparse else [*words, "--home", str(home)], check=True, capture_output=True)

    def words(self, *options):
        return [str(word) for word in (self.program, "serve", self.log, self.home, *options)]

    def serve(self, *options, before=()):
        """A server, and the socket of its client. `before` are the words of a command that runs it."""
        ours, theirs = socket.socketpair()
        with theirs, open(self.said, "wb") as said:
            server = subprocess.Popen([*before, *self.words(*options)], stdin=theirs, stdout=theirs, stderr=said)
        return server, ours

    def connect(self, *options, before=()):
        """A server, and libnbd connected to it."""
        import nbd

        server, ours = self.serve(*options, before=before)
        h = nbd.NBD()
        h.set_full_info(True)
        h.connect_socket(ours.detach())
        return server, h


def capacity_of(h):
    """How many blocks a write has at most that is whole or absent, as the export's description says."""
    return int(re.search(r"up to (\d+) blocks", h.get_export_description())[1])


def read_all(h):
    """All bytes of a volume."""
    step = 8 << 20
    return b"".join(h.pread(min(step, h.get_size() - at), at) for at in range(0, h.get_size(), step))


class Listener:
    """A socket in the file system, each connection of which is the standard input and output of a server of its own, one after the other,
    and the exit statuses of these servers."""

    def __init__(self, path, words):
        self.path, self.words, self.statuses, self.started, self.server = Path(path), words, [], 0, None
        self.path.unlink(missing_ok=True)
        self.socket = socket.socket(socket.AF_UNIX)
        self.socket.bind(str(path))
        self.socket.listen(8)
        self.uri = f"nbd+unix:///?socket={path}"

    def run(self):
        with contextlib.suppress(OSError):
            while True:
                client, _ = self.socket.accept()
                self.started += 1
                with client:
                    self.server = subprocess.Popen(self.words, stdin=client, stdout=client, stderr=subprocess.DEVNULL)
                self.statuses.append(self.server.wait())

    def __enter__(self):
        threading.Thread(target=self.run, daemon=True).start()
        return self

    def __exit__(self, *_):
        self.socket.close()

    def wait(self, count=0):
        """Waits until so many servers have ended, and none is running or asked for; at most five minutes."""
        end = time.time() + 300
        while time.time() < end:
            asked = select.select([self.socket], [], [], 0.1)[0]
            if not asked and len(self.statuses) == self.started >= count:
                return


if __name__ == "__main__":
    Listener(sys.argv[1], sys.argv[2:]).run()
