#!/usr/bin/python3 -B
"""Losses of power under `jbench serve`, of its traced calls: at a moment of the trace each block of the two files holds what was synced, or
what any call wrote there since. `recover` then has to bring home what the first k of the changes that were sent made, in their order, with
k no earlier than any that an answered flush or FUA covers.

    serve_power.py [--program PATH] [--runs N] [--images N] [--requests N] [--seed N]

There are N runs (default: 10) of N requests (default: 300), and so many images of each (default: 100), at moments that are drawn from the
opening of the log to its close. A write counts from its call on, a sync covers what had returned before it was called, and an answer counts
from the call that sends it. What an image keeps of each block that was not synced is drawn: the old block, the newest, or any. Of one image
in ten the recovery is traced and cut as well, and the next one has to bring home the same bytes. Requests are those of serve_killed.py,
which come up to 32 at once. prefix.py judges, and is itself tried first. It ends with status 1 at the first image that is not as it has to
be, and names it. An interrupt has it print what it counted.

It wants strace 6 and Debian's python3-libnbd. The program is `./jbench`, which is built first, or the one at PATH; files are made in
/dev/shm.
"""
import argparse
import collections
import random
import re
import struct
import subprocess
import sys
import tempfile
from pathlib import Path

import nbd

from prefix import Changes, try_judge
from serve_killed import INTERVALS, Client
from served import Volume, add_program, capacity_of

SHAPES = [(1024, 65, 200), (1024, 129, 400), (1024, 1025, 300), (4096, 65, 64)]  # block size, log blocks, home blocks
CALLS = "write,writev,sendto,sendmsg,pwrite64,pwritev,pwritev2,fsync,fdatasync,sync_file_range,ftruncate,fallocate"
LINE = re.compile(r"(\d+) +(?:(\w+)\((.*)|<\.\.\. (\w+) resumed>(.*))$", re.DOTALL)
WRITE = re.compile(r'(\d+)<(.*?)>, "((?:\\x[0-9a-f]{2})*)", (\d+)(?:, (\d+))?')
FILE = re.compile(r"(\d+)<(.*?)>")
STRACE = ["strace", "-f", "--seccomp-bpf", "-qq", "-y", "-xx", "-s", "16777216", "-e", f"trace={CALLS}", "-e", "signal=none"]


class Event:
    """The begin or the end of a call."""

    def __init__(self, kind, **facts):
        self.kind = kind
        self.__dict__.update(facts)


def call_of(name, words):
    """A call by its name and the text of its words: its kind and what it is about."""
    if name == "pwrite64":
        _, path, data, length, at = WRITE.match(words).groups()
        data = bytes.fromhex(data.replace("\\x", ""))
        assert len(data) == int(length), "a write that strace cut short"
        return Event("write", path=path_of(path), at=int(at), data=data)
    if name in ("fsync", "fdatasync"):
        return Event("sync", path=path_of(FILE.match(words)[2]))
    if name == "write":
        number, _, data, length, _ = WRITE.match(words).groups()
        data = bytes.fromhex(data.replace("\\x", ""))
        assert len(data) == int(length), "a write that strace cut short"
        return Event("said", data=data if number == "1" else b"")
    raise SystemExit(f"a call that is not understood: {name}({words[:200]}")


def path_of(text):
    """With -xx strace writes paths as bytes too."""
    return bytes.fromhex(text.replace("\\x", "")).decode() if text.startswith("\\x") else text


def events_of(trace):
    """Begins and ends of calls, in the order in which strace saw them: pairs of what happens and the call."""
    events, open_calls = [], {}
    for line in trace.read_text().splitlines():
        found = LINE.match(line)
        if not found or "+++ " in line[:40]:
            continue
        thread, name, words, resumed, rest = found.groups()
        if name:
            call = call_of(name, words)
            events.append(("begin", call))
            if words.endswith("<unfinished ...>"):
                open_calls[thread] = call
                continue
            answer = words
        else:
            call, answer = open_calls.pop(thread), rest
        number = re.search(r"\) += (-?\d+)[^)]*$", answer)
        call.answer = int(number[1]) if number else None
        if call.kind == "write":
            assert call.answer == len(call.data), "a write that was cut short"
        events.append(("end", call))
    return events


class Disk:
    """Two files at moments of a trace: of each block what is synced, and what was written since."""

    def __init__(self, files, block):
        self.synced, self.block = {path: bytearray(path.read_bytes()) for path in files}, block
        self.since = {path: {} for path in files}  # block number to the writes, in order

    def pieces(self, call):
        for at in range(0, len(call.data), self.block):
            yield (call.at + at) // self.block, call.data[at : at + self.block]

    def see(self, what, call):
        path = Path(call.path) if call.kind in ("write", "sync") else None
        if path not in self.since:
            return
        since = self.since[path]
        if call.kind == "write":
            if what == "begin":
                assert call.at % self.block == 0, "a write that begins within a block"
                for k, data in self.pieces(call):
                    since.setdefault(k, []).append((call, data))
            call.has_ended = what == "end"
        elif what == "begin":
            call.covers = {id(write) for writes in since.values() for write, _ in writes if write.has_ended}
        elif call.answer == 0:
            for k, writes in list(since.items()):
                covered = [data for write, data in writes if id(write) in call.covers]
                if covered:
                    at = k * self.block
                    self.synced[path][at : at + len(covered[-1])] = covered[-1]
                    since[k] = [(write, data) for write, data in writes if id(write) not in call.covers]
                    if not since[k]:
                        del since[k]

    def image(self, draw):
        """What a loss of power may leave, and how many blocks there was a choice of."""
        files, choices, newest = {}, 0, draw.choice((0, 0.1, 0.5, 0.9, 1))
        for path, held in self.synced.items():
            files[path] = bytearray(held)
            for k, writes in self.since[path].items():
                choices += 1
                if draw.random() < newest:
                    data = (writes[-1] if draw.random() < 0.7 else draw.choice(writes))[1]
                    files[path][k * self.block : k * self.block + len(data)] = data
        return files, choices


def replies_of(events):
    """Of each answer to a request the moment, its cookie and its error."""
    told, ends = bytearray(), []
    for moment, (what, call) in enumerate(events):
        if what == "begin" and call.kind == "said":
            told += call.data
            ends.append((len(told), moment))
    at, is_go = 18, False
    while not is_go:
        magic, option, kind, length = struct.unpack_from(">QIII", told, at)
        assert magic == 0x3E889045565A9
        at, is_go = at + 20 + length, option == 7 and kind == 1
    replies = []
    while at < len(told):
        magic, error, cookie = struct.unpack_from(">IIQ", told, at)
        assert magic == 0x67446698
        at += 16
        replies.append((next(moment for end, moment in ends if end >= at), cookie, error))
    return replies


class Noting(Client):
    """A client that also notes, by the cookie of each request, what it covers once it is answered."""

    def __init__(self, *words):
        super().__init__(*words)
        self.covers, self.latest = {}, None

    def noted(self, what, number, covers, buffer=None):
        self.latest = covers
        return super().noted(what, number, covers, buffer)

    def run_requests(self, count, depth):
        handle, client = self.h, self

        class Handle:
            """libnbd, whose cookies are noted"""

            def __getattr__(self, name):
                call = getattr(handle, name)
                if name not in ("aio_pwrite", "aio_zero", "aio_trim", "aio_flush"):
                    return call

                def noting(*words):
                    cookie = call(*words)
                    client.covers[cookie] = client.latest
                    return cookie

                return noting

        self.h = Handle()
        for _ in range(count):
            self.once()
            while handle.aio_in_flight() > depth:
                handle.poll(-1)
        while handle.aio_in_flight():
            handle.poll(-1)
        self.h = handle


def recover(volume, files, before=()):
    for path, data in files.items():
        path.write_bytes(data)
    words = [*before, str(volume.program), "recover", str(volume.log), str(volume.home)]
    return subprocess.run(words, capture_output=True, text=True)


def cut_recovery(volume, files, draw, trace):
    """What is left of an image by a recovery that a loss of power cuts as well."""
    recover(volume, files, [*STRACE, "-o", str(trace)])
    events = events_of(trace)
    for path, data in files.items():
        path.write_bytes(data)
    disk, moment = Disk(files, volume.block), draw.randrange(len(events) + 1)
    for event in events[:moment]:
        disk.see(*event)
    return disk.image(draw)[0]


def one_run(program, folder, draw, requests, images, cases):
    """Nothing, where all images are as they have to be."""
    volume, trace = Volume(program, folder, *draw.choice(SHAPES)), Path(folder) / "trace"
    files = [volume.log, volume.home]
    disk, held = Disk(files, volume.block), volume.home.read_bytes()
    server, h = volume.connect(*draw.choice(INTERVALS), before=[*STRACE, "-o", str(trace)])
    changes = Changes(held, volume.block, capacity_of(h))
    client = Noting(h, changes, draw, cases)
    client.run_requests(requests, draw.choice((1, 4, 32)))
    h.shutdown()
    covers = client.covers
    del client, h
    if server.wait() != 0:
        return "the server ended badly"
    events = events_of(trace)
    replies = replies_of(events)
    moments = sorted(draw.randrange(len(events) + 1) for _ in range(images))
    cases["traced calls"] += sum(what == "begin" for what, _ in events)
    at, least = 0, 0
    for moment in moments:
        for event in events[at:moment]:
            disk.see(*event)
        at = moment
        while replies and replies[0][0] < moment:
            _, cookie, error = replies.pop(0)
            least = least if error else max(least, covers.get(cookie, 0))
        kept, choices = disk.image(draw)
        done = recover(volume, kept)
        found = volume.home.read_bytes()
        verdict, n = changes.verdict(found, least)
        if done.returncode == 0 and verdict == "whole" and draw.random() < 0.1:
            cases["recoveries cut"] += 1
            done = recover(volume, cut_recovery(volume, kept, draw, trace))
            verdict = verdict if volume.home.read_bytes() == found else "not as the recovery before"
        cases["images"] += 1
        cases["images with a choice"] += choices > 0
        cases["images that find more than was covered"] += n > least
        if done.returncode or verdict != "whole":
            sent = f"{len(changes.pieces)} sent; {changes.nearest}; {done.stderr}"
            return f"moment {moment} of {len(events)}: {verdict}, {n} found of {least} covered and {sent}"
    return None


def main():
    a = argparse.ArgumentParser(description=__doc__, formatter_class=argparse.RawDescriptionHelpFormatter)
    add_program(a)
    a.add_argument("--runs", type=int, default=10)
    a.add_argument("--images", type=int, default=100)
    a.add_argument("--requests", type=int, default=300)
    a.add_argument("--seed", type=int, default=1)
    a = a.parse_args()
    try_judge(random.Random(a.seed), 2)
    cases, wrong = collections.Counter(), None
    try:
        for seed in range(a.seed, a.seed + a.runs):
            with tempfile.TemporaryDirectory(dir="/dev/shm") as folder:
                wrong = one_run(a.program, folder, random.Random(seed), a.requests, a.images, cases)
            if wrong:
                print(f"seed {seed}: {wrong}")
                break
            cases["runs"] += 1
    except KeyboardInterrupt:
        print("interrupted")
    print(", ".join(f"{number} {what}" for what, number in sorted(cases.items())))
    print(f"{cases['images']} images, {int(bool(wrong))} wrong")
    return 1 if wrong else 0


if __name__ == "__main__":
    sys.exit(main())
