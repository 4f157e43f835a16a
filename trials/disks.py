"""Disks that lose power: each keeps a write in a cache until a flush. They are served over NBD."""
import contextlib
import socket
import struct
import threading


class Supply:
    """The power of some disks: it is cut at once, or at one of their next writes."""

    def __init__(self):
        self.lock, self.is_cut, self.writes_left = threading.Lock(), threading.Event(), None

    def cut_after(self, writes):
        with self.lock:
            self.writes_left = writes

    def cut(self):
        with self.lock:
            self.is_cut.set()

    def restore(self):
        self.writes_left = None
        self.is_cut.clear()


class Disk:
    """A disk with a cache, served over NBD at a socket: what is flushed, and each block's values since then."""

    FLAGS = 1 | 4  # there are flags; it takes flushes

    def __init__(self, path, held, block, supply):
        self.flushed, self.newest, self.since = bytearray(held), bytearray(held), {}
        self.block, self.supply = block, supply
        self.socket = socket.socket(socket.AF_UNIX)
        self.socket.bind(str(path))
        self.socket.listen(4)
        self.clients = []
        threading.Thread(target=self.accept, daemon=True).start()

    def accept(self):
        with contextlib.suppress(OSError):
            while True:
                client, _ = self.socket.accept()
                self.clients.append(threading.Thread(target=self.serve, args=(client,), daemon=True))
                self.clients[-1].start()

    def serve(self, client):
        def take(count):
            data = client.recv(count, socket.MSG_WAITALL) if count else b""
            if len(data) != count:
                raise EOFError
            return data

        with client, contextlib.suppress(OSError, EOFError):
            client.sendall(struct.pack(">8s8sH", b"NBDMAGIC", b"IHAVEOPT", 3))
            take(4)
            option = None
            while option != 7:
                _, option, length = struct.unpack(">8sII", take(16))
                take(length)
                replies = [(1, b"")] if option in (2, 6, 7) else [(0x80000001, b"")]
                if option in (6, 7):
                    replies.insert(0, (3, struct.pack(">HQH", 0, len(self.newest), self.FLAGS)))
                for kind, data in replies:
                    client.sendall(struct.pack(">QIII", 0x3E889045565A9, option, kind, len(data)) + data)
            while True:
                _, _, command, cookie, at, length = struct.unpack(">IHHQQI", take(28))
                data = take(length) if command == 1 else b""
                if command == 2:
                    return
                error, data = self.answer(command, at, length, data)
                client.sendall(struct.pack(">IIQ", 0x67446698, error, cookie) + data)

    def answer(self, command, at, length, data):
        """A request that is done, or fails without power. The write at which the power goes is in the cache, and fails."""
        with self.supply.lock:
            if self.supply.is_cut.is_set():
                return 5, b""
            if command == 0:
                return 0, bytes(self.newest[at : at + length])
            if command == 1:
                self.newest[at : at + length] = data
                for k in range(at // self.block, -(-(at + length) // self.block)):
                    self.since.setdefault(k, []).append(bytes(self.newest[k * self.block : (k + 1) * self.block]))
                if self.supply.writes_left is not None:
                    self.supply.writes_left -= 1
                    if self.supply.writes_left <= 0:
                        self.supply.is_cut.set()
                        return 5, b""
                return 0, b""
            if command == 3:
                for k, values in self.since.items():
                    self.flushed[k * self.block : k * self.block + len(values[-1])] = values[-1]
                self.since.clear()
                return 0, b""
            return 22, b""

    def set(self, held):
        """No client is there, and so it has these bytes."""
        self.flushed[:], self.newest[:] = held, held
        self.since.clear()

    def lose(self, draw):
        """What a loss of power may leave, once no client is left: how many blocks there was a choice of."""
        for client in self.clients:
            client.join()
        self.clients.clear()
        choices, newest = len(self.since), draw.choice((0, 0.1, 0.5, 0.9, 1))
        for k, values in self.since.items():
            if draw.random() < newest:
                value = values[-1] if draw.random() < 0.7 else draw.choice(values)
                self.flushed[k * self.block : k * self.block + len(value)] = value
        self.newest[:] = self.flushed
        self.since.clear()
        return choices
