#!/usr/bin/env -S python3 -B
"""Random requests, given to `jbench serve` as one stream each: all that it answers, and the home area that it leaves, are compared with the
model of `serve_rows.py`. It wants no client of NBD. Answers may come in another order than requests: each is compared by its cookie. Requests
have less than 64 KiB, since reads may overtake longer changes.

    serve_streams.py [--program PATH] COUNT SEED
"""
import argparse, pathlib, random, socket, struct, subprocess, sys, tempfile, time

TOP = pathlib.Path(__file__).resolve().parent.parent
sys.path.append(str(TOP / "models"))

import serve_rows as model

BLOCKS = 1024
MOST_SENT, MOST_READ = 3 << 20, 1 << 20
LENGTHS = [1, 7, 512, 1024, 4096, 5000, 30000, 60000]


class Connection(model.Connection):
    """remembers how many bytes each answer has"""

    def request(self, command, cookie, offset=0, length=0, data=b"", **more):
        self.lengths[cookie] = length if command == 0 else 0
        return super().request(command, cookie, offset, length, data, **more)


def answers(out, begun, lengths):
    """the bytes before the first answer, each cookie's error and bytes, how many answers there are, and whether that is all"""
    told, count, at = {}, 0, begun
    while at + 16 <= len(out):
        magic, error, cookie = struct.unpack_from(">IIQ", out, at)
        if magic != 0x67446698:
            break
        n = 0 if error else lengths.get(cookie, 0)
        told[cookie] = (error, out[at + 16 : at + 16 + n])
        count, at = count + 1, at + 16 + n
    return out[:begun], told, count, at == len(out)


def refused(c, cookie):
    """a request that is refused"""
    end = model.SIZE
    words = [(0, end - 5, 10, b""), (1, end - 5, 0, b"x" * 10), (99, 0, 0, b""), (0, 0, model.MOST + 1, b""), (6, 0, 2**32 - 1, b"")]
    command, at, length, data = random.choice(words)
    c.request(command, cookie, at, length, data)


def trimmed(c, cookie, at, n):
    """a trim of blocks, which are written again, so that it is told what they hold"""
    old, first = bytes(c.home), at // model.BLOCK * model.BLOCK
    c.filled.clear()  # nobody reads what they hold between the two
    c.request(4, cookie, at, n)
    c.request(1, cookie, first, data=old[first : -(-(at + n) // model.BLOCK) * model.BLOCK])


def stream(seed):
    random.seed(seed)
    c, cookie = Connection(), 0
    c.go()
    c.begun, c.lengths = len(c.out), {}
    while len(c.requests) < MOST_SENT and len(c.out) < MOST_READ:
        cookie += 1
        what, at = random.random(), random.randrange(model.SIZE)
        n = min(random.choice(LENGTHS), model.SIZE - at)
        if random.random() < 0.4:
            at = at // model.BLOCK * model.BLOCK
            n = min(max(n // model.BLOCK, 1) * model.BLOCK, model.SIZE - at)
        if what < 0.5:
            c.request(1, cookie, at, data=random.randbytes(n))
        elif what < 0.8:
            c.request(0, cookie, at, n)
        elif what < 0.9:
            c.request(6, cookie, at, n, flags=random.choice([0, 2]))
        elif what < 0.95:
            trimmed(c, cookie, at, n)
        else:
            refused(c, cookie)
    return c.request(0, cookie + 1, 0, model.SIZE).request(3, cookie + 2).request(2, cookie + 3)


def serve(program, c):
    """what a stream differs in"""
    with tempfile.TemporaryDirectory() as name:
        files = [f"{name}/log", f"{name}/home"]
        subprocess.run([program, "format", *files, "--length", "257", "--home", str(BLOCKS)], check=True, stdout=subprocess.DEVNULL)
        done = subprocess.run([program, "serve", *files], input=c.hello + c.requests, capture_output=True, timeout=120)
        left = pathlib.Path(files[1]).read_bytes()
    found = {"status": done.returncode == 0, "answers": answers(done.stdout, c.begun, c.lengths) == answers(c.out, c.begun, c.lengths), "home": left == bytes(c.home)}
    return [word for word, same in found.items() if not same]


def sent_first(program):
    """whether a client that reads no answer before it has sent a read and a write of all bytes gets both answers"""
    c = Connection()
    c.lengths = {}
    c.go()
    begun = len(c.out)
    c.request(0, 1, 0, model.SIZE)
    asked = len(c.requests)
    c.request(1, 2, 0, data=bytes([7]) * model.SIZE).request(2, 3)
    ours, server = socket.socketpair()
    with tempfile.TemporaryDirectory() as name:
        files = [f"{name}/log", f"{name}/home"]
        subprocess.run([program, "format", *files, "--length", "257", "--home", str(BLOCKS)], check=True, stdout=subprocess.DEVNULL)
        with subprocess.Popen([program, "serve", *files], stdin=server, stdout=server) as served:
            server.close()
            ours.settimeout(20)
            out = b""
            try:
                ours.sendall(c.hello + c.requests[:asked])
                time.sleep(0.5)
                ours.sendall(c.requests[asked:])
                while piece := ours.recv(1 << 20):
                    out += piece
            except TimeoutError:
                served.kill()
    return answers(out, begun, c.lengths) == answers(c.out, begun, c.lengths)


def main():
    a = argparse.ArgumentParser()
    a.add_argument("--program", default=TOP / "jbench")
    a.add_argument("count", type=int)
    a.add_argument("seed", type=int)
    a = a.parse_args()
    model.HOME, model.SIZE = BLOCKS, BLOCKS * model.BLOCK
    wrong = 0
    for seed in range(a.seed, a.seed + a.count):
        if differs := serve(a.program, stream(seed)):
            wrong += 1
            print(f"seed {seed}: {', '.join(differs)}", flush=True)
    if not sent_first(a.program):
        wrong += 1
        print("a client that reads no answer before it has sent all: wrong")
    print(f"{a.count} streams, {wrong} wrong")
    return 1 if wrong else 0


if __name__ == "__main__":
    sys.exit(main())
