#!/usr/bin/env -S python3 -B
"""What `jbench run` prints of a script, by the documents alone: a model of a whole run that shares nothing with the journal.

usage: run_model.py SCRIPT [--stop K | --fail K] [--keep LIST] [--stop2 K] [--keep2 LIST]

It prints what a run of this file should print. It takes no bad scripts: what it is given is not tested. The rules are those of
docs/JBENCH.md (scripts, runs, dumps) and docs/FORMAT.md (bytes, device calls and their order); what an opening finds is said by
openings.py. `trials/runs.py` has random scripts, and compares them with the program.
"""
import json
import sys
from pathlib import Path

from openings import (COMMIT, DESCRIPTOR, MAGIC, NARROW, REVOKE, SUPERBLOCK, WIDE, has_magic, is_wide, numbers_of, opening, tag_of,
                      tags_of, word, words_of)

DEFAULTS = {"block": 1024, "length": 33, "home": 64, "uuid": "aa" * 16, "wide": False}
# by whether block numbers have 64 bits, and by the bytes of a block
TAGS = {False: {1024: 122, 2048: 250, 4096: 506}, True: {1024: 81, 2048: 167, 4096: 337}}
NUMBERS = {False: {1024: 252, 2048: 508, 4096: 1020}, True: {1024: 126, 2048: 254, 4096: 510}}
ESCAPED, SAME_UUID, LAST_TAG = 1, 2, 8


# ---- the device


class Stopped(Exception):
    """A device call failed."""


class Refused(Exception):
    """A call of the journal is refused, with this number and name."""


class Device:
    """Two areas of blocks behind a volatile cache. Writes count from 1; the one of number `stop` fails, as do all later calls.

    Calls count too: reads, writes and flushes. The one of number `fail` fails and does nothing.
    """

    def __init__(self, size, counts, flushed, stop=None):
        self.size, self.counts, self.stop = size, counts, stop
        self.flushed = flushed  # by area and place; every other block is zeros
        self.unflushed = {"log": [], "home": []}  # number, place and bytes
        self.writes, self.is_stopped = 0, False
        self.calls, self.fail = 0, None

    def read(self, area, place):
        self.begin_call()
        newest = [block for _, at, block in self.unflushed[area] if at == place][-1:]
        return newest[0] if newest else self.flushed[area].get(place, bytes(self.size))

    def write(self, area, place, block):
        self.begin_call()
        assert len(block) == self.size and place < self.counts[area]
        self.writes += 1
        self.unflushed[area].append((self.writes, place, block))
        self.is_stopped = self.writes == self.stop
        self.test()

    def flush(self, area):
        self.begin_call()
        for _, place, block in self.unflushed[area]:
            self.flushed[area][place] = block
        self.unflushed[area] = []

    def begin_call(self):
        self.calls += 1
        if self.calls == self.fail:
            raise Stopped
        self.test()

    def test(self):
        if self.is_stopped:
            raise Stopped

    def unflushed_numbers(self):
        return [number for area in ("log", "home") for number, _, _ in self.unflushed[area]]

    def image(self, keep, stop=None):
        """What a stop leaves, where these writes are kept, as a device with all that flushed."""
        left = {}
        for area in ("log", "home"):
            left[area] = dict(self.flushed[area])
            left[area].update((place, block) for number, place, block in self.unflushed[area] if number in keep)
        return Device(self.size, self.counts, left, stop)

    def blocks(self, area):
        """All flushed blocks of an area."""
        zeros = bytes(self.size)
        return [self.flushed[area].get(place, zeros) for place in range(self.counts[area])]


# ---- the bytes of the log


def formatted(script):
    """The superblock of an empty log."""
    size, length = script["block"], script["length"]
    features = WIDE if script["wide"] else NARROW
    fields = words_of([MAGIC, SUPERBLOCK, 0, size, length, 1, 1, 0, 0, 0, features, 0])
    return (fields + bytes.fromhex(script["uuid"]) + words_of([1])).ljust(size, b"\0")


def with_start(superblock, sequence, start):
    return superblock[:0x18] + words_of([sequence, start]) + superblock[0x20:]


def text_of(tid, entries, size, uuid, wide):
    """The log blocks of a transaction: revoke blocks, then descriptors, each before its copies, and a commit block."""
    revoked, most = [number for number, copy in entries.items() if copy is None], NUMBERS[wide][size]
    blocks = [revoke_block(tid, revoked[i : i + most], size, wide) for i in range(0, len(revoked), most)]
    left = [(number, copy) for number, copy in entries.items() if copy is not None]
    while left:
        descriptor, stored, is_last = words_of([MAGIC, DESCRIPTOR, tid]), [], False
        while not is_last:
            number, copy = left.pop(0)
            more = b"" if stored else uuid
            tag_bytes = 12 if wide else 8
            is_last = not left or size - len(descriptor) - tag_bytes - len(more) < tag_bytes + 16
            flags = (SAME_UUID if stored else 0) + (LAST_TAG if is_last else 0) + (ESCAPED if has_magic(copy) else 0)
            descriptor += tag_of(number, flags, wide) + more
            stored.append(bytes(4) + copy[4:] if has_magic(copy) else copy)
        blocks += [descriptor.ljust(size, b"\0")] + stored
    return blocks + [words_of([MAGIC, COMMIT, tid]).ljust(size, b"\0")]


def revoke_block(tid, numbers, size, wide):
    spelled = b"".join(number.to_bytes(8 if wide else 4, "big") for number in numbers)
    return (words_of([MAGIC, REVOKE, tid, 16 + len(spelled)]) + spelled).ljust(size, b"\0")


def need(entries, size, wide):
    revokes = sum(copy is None for copy in entries.values())
    copies = len(entries) - revokes
    return copies + -(-copies // TAGS[wide][size]) + -(-revokes // NUMBERS[wide][size]) + 1


def capacity(size, ring, wide):
    """The most credits that are held at any time."""
    greatest = 0
    while greatest + 1 + -(-(greatest + 1) // TAGS[wide][size]) + 1 <= ring // 4:
        greatest += 1
    return greatest


# ---- the journal


class Handle:
    """A handle from its start on; once it is stopped it is a ticket."""

    def __init__(self, tid, credits):
        self.tid, self.left, self.is_open = tid, credits, True


class Journal:
    """A journal on a device that was just formatted and opened.

    A transaction's entries are a dict in first-touch order, from home blocks to the bytes of their copies, or to None where they
    are revoked.
    """

    def __init__(self, device):
        self.device = device
        self.superblock = device.read("log", 0)
        self.ring = device.counts["log"] - 1
        self.wide = is_wide(self.superblock)
        self.capacity = capacity(device.size, self.ring, self.wide)
        self.sealed = []  # number and entries of each
        self.number, self.entries, self.handles, self.is_locked = 2, {}, [], False  # of the running transaction
        self.is_aborted = False  # whether the device has failed
        self.committing, self.calls = {}, []  # the entries of the transaction that is being committed, and the calls that are left
        self.copied = set()  # the blocks whose last committed entry is a copy, released or not
        self.direct = {}  # by home block: its direct writes, each as how many transactions were sealed then, and its bytes
        self.synced = {}  # by home block: which of these is the last that was synced
        self.mark = self.released = 1
        self.ends = {1: 0}  # the position after each transaction's blocks, over all laps
        self.pending = {}  # by home block: transaction and bytes of its newest committed copy that is not released
        self.is_home = set()  # which of these are written home
        self.bound, self.round = None, []  # the last transaction of the round that is under way, and the calls after its copies

    def place(self, position):
        return 1 + position % self.ring

    def held(self):
        return len(self.entries) + sum(handle.left for handle in self.handles if handle.is_open)

    def test_credits(self, credits):
        if credits > self.capacity:
            raise Refused("6 TooMany")
        if self.held() + credits > self.capacity:
            raise Refused("5 Full")
        if self.is_aborted:
            raise Refused("3 Aborted")
        if self.is_locked:
            raise Refused("7 NotRunning")

    def start(self, credits):
        self.test_credits(credits)
        self.handles.append(Handle(self.number, credits))
        return self.handles[-1]

    def extend(self, handle, credits):
        self.test_credits(credits)
        handle.left += credits

    def test_block(self, number):
        if number >= self.device.counts["home"] or number >= (2**48 if self.wide else 2**32):
            raise Refused("8 BadBlock")

    def touch(self, handle, number, copy):
        """A write of a block by a handle, or its revoke, where there is no copy."""
        self.test_block(number)
        if number not in self.entries:
            if handle.left == 0:
                raise Refused("4 NoCredit")
            handle.left -= 1
        self.entries[number] = copy

    def read(self, number):
        self.test_block(number)
        for entries in (self.entries, self.committing):
            if number in entries:
                if entries[number] is None:
                    raise Refused("12 Revoked")
                return entries[number]
        return self.pending[number][1] if number in self.pending else self.device.read("home", number)

    def write_direct(self, number, block):
        self.test_block(number)
        if number in self.copied or number in self.committing or number in self.entries:
            raise Refused("9 NotDirect")
        self.direct.setdefault(number, []).append((len(self.sealed), block))
        self.device.write("home", number, block)

    def sync_direct(self):
        self.device.flush("home")
        self.synced = {number: len(writes) - 1 for number, writes in self.direct.items()}

    def request(self, ticket):
        if ticket.tid == self.number:
            self.is_locked = True

    def lock(self):
        if self.handles:
            self.is_locked = True
        return self.number

    def turn(self):
        if self.calls:
            call, *words = self.calls.pop(0)
            call(*words)
            return "step" if self.calls else self.finish()
        if not self.is_locked:
            return "idle"
        if any(handle.is_open for handle in self.handles):
            return "waiting"
        return self.seal()

    def seal(self):
        """Seals the running transaction, and lists the device calls of its commit."""
        device, tid, position = self.device, self.number, self.ends[self.number - 1]
        if need(self.entries, device.size, self.wide) > self.ring - (position - self.ends[self.released]):
            raise Refused("11 NeedSpace")
        *blocks, commit_block = text_of(tid, self.entries, device.size, self.superblock[0x30:0x40], self.wide)
        if word(self.superblock, 0x1C) == 0:
            self.calls = [(self.write_superblock, tid, self.place(position)), (device.flush, "log")]
        for i, block in enumerate(blocks):
            self.calls.append((device.write, "log", self.place(position + i), block))
        end = position + len(blocks)
        self.calls += [(device.flush, "log"), (device.write, "log", self.place(end), commit_block), (device.flush, "log")]
        self.ends[tid] = end + 1
        self.sealed.append((tid, self.entries))
        self.committing = self.entries
        self.number, self.entries, self.handles, self.is_locked = tid + 1, {}, [], False
        return f"sealed {tid}"

    def finish(self):
        self.mark += 1
        for number, copy in self.committing.items():
            self.pending.pop(number, None)
            self.is_home.discard(number)
            self.copied.discard(number)
            if copy is not None:
                self.pending[number] = (self.mark, copy)
                self.copied.add(number)
        self.committing = {}
        return f"committed {self.mark}"

    def write_superblock(self, sequence, start):
        self.superblock = with_start(self.superblock, sequence, start)
        self.device.write("log", 0, self.superblock)

    def check_turn(self):
        if not self.round:
            if self.released == self.mark:
                return "idle"
            self.bound = self.mark
            start = self.place(self.ends[self.bound])
            self.round = [(self.device.flush, "home"), (self.write_superblock, self.bound + 1, start), (self.device.flush, "log")]
        left = [(tid, number) for number, (tid, _) in self.pending.items() if tid <= self.bound and number not in self.is_home]
        if left:
            _, number = min(left)
            self.is_home.add(number)
            self.device.write("home", number, self.pending[number][1])
            return "step"
        call, *words = self.round.pop(0)
        call(*words)
        return "step" if self.round else self.release()

    def release(self):
        self.released = self.bound
        self.pending = {number: copy for number, copy in self.pending.items() if copy[0] > self.bound}
        self.is_home &= set(self.pending)
        return f"released {self.bound}"


# ---- a run


NEED_OPEN = ("write", "revoke", "read", "extend", "restart", "stop")


class Run:
    """A run of a script up to its stop: its lines, and what has to be known to judge it.

    Where a call is to fail the script goes on after it; else it ends with the first operation that the device refuses.
    """

    ALWAYS = ("start", "extend", "restart", "stop", "status", "wait")  # what answers by itself after a failed call

    def __init__(self, text, stop=None, fail=None):
        self.script = {**DEFAULTS, **json.loads(text)}
        counts = {"log": self.script["length"], "home": self.script["home"]}
        self.device = Device(self.script["block"], counts, {"log": {0: formatted(self.script)}, "home": {}}, stop)
        self.journal = Journal(self.device)
        self.device.calls, self.device.fail = 0, fail
        self.names, self.lines, self.shown = {}, [], 0
        for operation in self.script["ops"]:
            self.lines.append(self.line(operation))
            if self.lines[-1].endswith("refused 2 Device"):
                if fail is None:
                    break
                self.journal.is_aborted = True
        self.lines.append(f"stopped {stop}" if self.device.is_stopped else "stopped at end")

    def line(self, operation):
        name, *words = operation
        left = " ".join(map(str, operation[: 2 if name == "direct" else 3]))
        if words and name not in ("start", "direct"):
            handle = self.names[words[0]]
            if handle is None or (name in NEED_OPEN and not handle.is_open):
                return f"{left} = skipped"
        if self.journal.is_aborted and name not in self.ALWAYS:
            return f"{left} = refused 3 Aborted"
        try:
            return f"{left} = {getattr(self, 'do_' + name)(*words)}"
        except Stopped:
            return f"{left} = refused 2 Device"
        except Refused as refused:
            return f"{left} = refused {refused}"

    def do_start(self, name, credits):
        self.names[name] = None
        self.names[name] = self.journal.start(credits)
        return self.names[name].tid

    def do_write(self, name, number, data):
        self.journal.touch(self.names[name], number, self.block_of(data))
        return "ok"

    def do_revoke(self, name, number):
        self.journal.touch(self.names[name], number, None)
        return "ok"

    def block_of(self, data):
        return bytes.fromhex(data).ljust(self.device.size, b"\0")

    def do_read(self, _, number):
        return self.journal.read(number)[:8].hex()

    def do_extend(self, name, credits):
        self.journal.extend(self.names[name], credits)
        return "ok"

    def do_restart(self, name, credits):
        self.names[name].is_open = False
        self.names[name] = self.journal.start(credits)
        return self.names[name].tid

    def do_stop(self, name):
        self.names[name].is_open = False
        return self.names[name].tid

    def do_request(self, name):
        self.journal.request(self.names[name])
        return "ok"

    def do_lock(self):
        return self.journal.lock()

    def do_turn(self):
        return self.journal.turn()

    def do_commit(self):
        while self.journal.turn() not in ("idle", "waiting"):
            pass
        return self.journal.mark

    def do_ckturn(self):
        return self.journal.check_turn()

    def do_check(self):
        while self.journal.check_turn() != "idle":
            pass
        return "idle"

    def do_direct(self, number, data):
        self.journal.write_direct(number, self.block_of(data))
        return "ok"

    def do_sync(self):
        self.journal.sync_direct()
        return "ok"

    def do_status(self, name):
        return "committed" if self.show(name) else "open"

    def do_wait(self, name):
        if self.journal.is_aborted and self.names[name].tid <= self.journal.mark:
            raise Refused("3 Aborted")
        return self.names[name].tid if self.show(name) else "open"

    def show(self, name):
        """Whether the transaction of a ticket is committed; the greatest that is shown so is noted."""
        tid = self.names[name].tid
        if tid <= self.journal.mark:
            self.shown = max(self.shown, tid)
        return tid <= self.journal.mark


class Outcome:
    """What comes of a run: all its lines, and its image before the openings and after them."""

    def __init__(self, run, keep, stop2=None, keep2=()):
        self.run, self.image = run, run.device.image(keep)
        log = self.image.blocks("log")
        self.line, _, self.writes, _ = opening(log, self.image.counts["home"])
        self.next = number_behind("next=", self.line)
        self.n = sum(tid < self.next - 1 for tid, _ in run.journal.sealed)
        self.lines = run.lines + dump_lines(log)
        self.left, follows_on = self.open_image(stop2, keep2)
        self.direct = {operation[1] for operation in run.script["ops"] if operation[0] == "direct"}
        touched = {operation[2] for operation in run.script["ops"] if operation[0] in ("write", "revoke", "read")}
        self.named = sorted(touched | self.direct)
        for number in self.named_blocks():
            self.lines.append(f"home {number} {self.home(number)[:8].hex()}")
        self.lines.append(f"verdict {'ok' if follows_on and self.is_right() else 'false'}")

    def open_image(self, stop2, keep2):
        """Adds the lines of the openings; answers the device that they leave, and whether a second one follows on the first."""
        device = self.image.image((), stop2)
        try:
            open_device(device)
            self.lines.append(opening_line("open", self.line, self.n))
            return device.image(()), True
        except Stopped:
            device = device.image(keep2)
            line = open_device(device)
            self.lines += [f"stopped again {stop2}", opening_line("reopen", line, self.n)]
            return device.image(()), number_behind("next=", line) - ("clean" in line) == self.next

    def named_blocks(self):
        return [number for number in self.named if number < self.image.counts["home"]]

    def home(self, number):
        return self.left.flushed["home"].get(number, bytes(self.image.size))

    def is_right(self):
        """Whether n and the named blocks are as the record asks."""
        sealed = self.run.journal.sealed
        if not sum(tid <= self.run.shown for tid, _ in sealed) <= self.n <= len(sealed):
            return False
        last = {number: copy for _, entries in sealed[: self.n] for number, copy in entries.items()}
        return all(self.is_right_block(number, last) for number in self.named_blocks())

    def is_right_block(self, number, last):
        """Whether a block is its last copy; of one that was revoked, or that a script writes directly, nothing is asked."""
        if number in last:
            return last[number] in (None, self.home(number))
        return number in self.direct or not any(self.home(number))

    def keeps_promises(self):
        """Whether each named block is as the journal promises, which is more than the verdict asks: a test of the model's own rules."""
        return all(self.is_left_rightly(number) and self.keeps_synced(number) for number in self.named_blocks())

    def is_left_rightly(self, number):
        """Whether a block is its last copy, or as it is in the image: zeros, one of its copies, or a direct write of it."""
        journal, found = self.run.journal, self.home(number)
        entries = [entries[number] for _, entries in journal.sealed[: self.n] if number in entries]
        if entries and entries[-1] is not None:
            return found == entries[-1]
        zeros = bytes(self.image.size)
        held = [zeros, *entries, *(block for _, block in journal.direct.get(number, []))]
        return found in held and found == self.image.flushed["home"].get(number, zeros)

    def keeps_synced(self, number):
        """Whether a block is the direct write that was synced last, or a later one, where no transaction sealed since that has it."""
        journal = self.run.journal
        if number not in journal.synced:
            return True
        since, writes = journal.synced[number], journal.direct[number]
        if any(number in entries for _, entries in journal.sealed[writes[since][0] :]):
            return True
        return self.home(number) in [block for _, block in writes[since:]]

    def recovered(self):
        """The line of `jbench recover` of the image, and what it leaves."""
        _, home, _, superblock = opening(self.image.blocks("log"), self.image.counts["home"])
        flushed = self.image.flushed
        flushed = {"log": {**flushed["log"], 0: superblock}, "home": {**flushed["home"], **home}}
        return self.line, Device(self.image.size, self.image.counts, flushed)


def number_behind(name, line):
    return int(line.partition(name)[2].split()[0])


def opening_line(name, line, n):
    """A run's line for an opening, from that of `recover`."""
    found = line.removeprefix("recovered ").partition(" transactions=")[0]
    return f"{name} {found} n={n}"


def open_device(device):
    """Makes the device calls of an opening, and answers its line."""
    line, home, writes, superblock = opening(device.blocks("log"), device.counts["home"])
    device.flush("log")
    if writes:
        for number, copy in home.items():
            device.write("home", number, copy)
        device.flush("home")
        device.write("log", 0, superblock)
        device.flush("log")
    return line


def dump_lines(log):
    size, length, first, due, start = (word(log[0], at) for at in (0x0C, 0x10, 0x14, 0x18, 0x1C))
    wide = is_wide(log[0])
    lines = [f"super blocksize={size} maxlen={length} first={first} sequence={due} start={start}" + " wide" * wide]
    if start == 0:
        return lines + [f"empty sequence={due}"]
    ring, taken, begin, of_due = length - first, 0, due, []
    place = lambda position: first + (start - first + position) % ring
    while taken < ring:
        block = log[place(taken)]
        if not has_magic(block) or word(block, 8) != due or word(block, 4) not in (DESCRIPTOR, COMMIT, REVOKE):
            break
        if word(block, 4) == COMMIT:
            lines += of_due + [f"{place(taken)} commit {due}"]
            taken, of_due, due = taken + 1, [], due + 1
            continue
        if word(block, 4) == REVOKE:
            of_due.append(f"{place(taken)} revoke {due} blocks=" + ",".join(map(str, numbers_of(block, 2**64, wide))))
            taken += 1
            continue
        tags = tags_of(block, 2**64, wide)
        if taken + 1 + len(tags) > ring:
            break
        of_due.append(f"{place(taken)} descriptor {due} tags={len(tags)}")
        for i, (number, is_escaped) in enumerate(tags, taken + 1):
            of_due.append(f"{place(i)} copy {due} block={number}" + " escaped" * is_escaped)
        taken += 1 + len(tags)
    return lines + [f"end sequence={due} transactions={due - begin}"]


# ---- words


def options_of(words):
    """The options that words as `--stop 4 --keep 3,4` are, by their names."""
    options = {}
    for name, value in zip(words[::2], words[1::2]):
        is_list = name.startswith("--keep")
        options[name.removeprefix("--")] = [int(text) for text in value.split(",") if text] if is_list else int(value)
    return options


def outcome_of(text, options):
    run = Run(text, options.get("stop"), options.get("fail"))
    return Outcome(run, options.get("keep", ()), options.get("stop2"), options.get("keep2", ()))


def main():
    path, *words = sys.argv[1:]
    print("\n".join(outcome_of(Path(path).read_text(), options_of(words)).lines))


if __name__ == "__main__":
    main()
