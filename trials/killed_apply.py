#!/usr/bin/env -S python3 -B
"""`jbench apply --keep-going` over files, killed at random, and then `jbench recover`: what is left has to be what a separate model says.

usage: killed_apply.py [--program PATH] [COUNT] [SEED]                        so many random scripts (default: 200 from seed 1)
       killed_apply.py [--program PATH] --e2fsck | --kernel [COUNT] [SEED]    what is left is also recovered by these

The model is run_model.py, which shares nothing with the journal, with the close of docs/FORMAT.md beside it; the scripts are those of
runs.py. Each script is applied to new files once to its end and then several times, each time killed (SIGKILL) once a drawn number of its
lines has come, or a moment later; half of all applies are made with --stay, and half with --make-room. Each time:

- what was printed is the front of what the model prints of the whole apply, and standard error says of an open wait what the model says;
- both files hold, byte for byte, what the model's device holds after one of its writes (a kill takes no write back of those
  that were handed to a file, and they are handed over in their order, so all of them are there up to some one); where it was not
  killed, behind the last one;
- `recover` ends as the model's opening of these files, and leaves the model's bytes;
- the n transactions that it finds are the first n that the script seals, n is at least the number of those up to the greatest that a
  `wait` or a `status` line showed committed, and each block is as these n leave it.

With --e2fsck and --kernel each log that is left and is not clean is also put into a file system, as runs.py does it with images, and
what e2fsck or the kernel brings home is what the model says.

At the first difference the script, the words and what differs are printed, and nothing more is run (exit status 1). The program is
`./jbench`, which is built first, or the one at PATH. Run it by hand.
"""
import random
import signal
import subprocess
import sys
import tempfile
import time
from collections import Counter
from pathlib import Path

sys.path.append(str(Path(__file__).resolve().parent.parent / "models"))

from openings import opening, word
from run_model import Device, Journal, Outcome, Refused, Run, formatted, number_behind
from runs import (Difference, FileSystems, RandomScript, count_and_seed, first_difference, program_of, recover_by_e2fsck,
                  recover_by_kernel)

KILLS = 6  # of each script
CLOSED_AT = 0x1C  # where a superblock says where the log begins: 0 where it is clean


# ---- the model of an apply


class Recorded(Device):
    """A device that never stops, and keeps a list of its writes: area, place and bytes."""

    def __init__(self, *words):
        super().__init__(*words)
        self.made = []

    def write(self, area, place, block):
        super().write(area, place, block)
        self.made.append((area, place, block))


class Apply(Run):
    """An apply of a script to a log that was just formatted, with all its lines, and how much was shown committed after each."""

    def __init__(self, text, stay, make_room=False):
        super().__init__(text)  # reads the script, and does it once on a device that is thrown away
        counts = {"log": self.script["length"], "home": self.script["home"]}
        self.first = {"log": {0: formatted(self.script)}, "home": {}}
        copy = {area: dict(blocks) for area, blocks in self.first.items()}
        self.device = Recorded(self.script["block"], counts, copy)
        self.journal = Journal(self.device)
        self.names, self.lines, self.shown, self.showns = {}, ["clean next=2"], 0, [0]
        self.open_wait = 0
        for operation in self.script["ops"]:
            line = self.line(operation)
            if make_room and line.endswith(" = refused 11 NeedSpace"):
                self.do_check()
                line = self.line(operation)
            if operation[0] == "wait" and line.endswith(" = open"):
                self.open_wait = max(self.open_wait, self.names[operation[1]].tid)
            self.lines.append(line)
            self.showns.append(self.shown)
        self.is_open = self.open_wait > self.shown
        for handle in self.journal.handles:
            handle.is_open = False
        if not stay:
            self.close()

    def close(self):
        journal = self.journal
        while journal.calls:
            journal.turn()
        if journal.handles:
            journal.is_locked = True
            try:
                journal.turn()
            except Refused:  # too few ring blocks are free
                self.do_check()
                journal.turn()
            while journal.calls:
                journal.turn()
        self.do_check()
        if word(journal.superblock, CLOSED_AT):
            journal.write_superblock(journal.number, 0)
            self.device.flush("log")
        self.lines.append(f"closed next={number_behind('next=', opening(self.blocks(len(self.device.made))['log'], 1)[0])}")
        self.showns.append(self.shown)

    def said(self):
        """What standard error has of the whole apply."""
        why = 'no line after it showed that committed: ["commit"] has to come before it'
        return f"jbench: a wait for transaction {self.open_wait} came to open, and {why}\n" if self.is_open else ""

    def blocks(self, writes):
        """All blocks of both areas after so many writes."""
        held = {area: dict(blocks) for area, blocks in self.first.items()}
        for area, place, block in self.device.made[:writes]:
            held[area][place] = block
        zeros = bytes(self.device.size)
        return {area: [held[area].get(place, zeros) for place in range(count)] for area, count in self.device.counts.items()}

    def writes_of(self, found):
        """After how many writes the device holds these bytes, by area; the last such number, or None."""
        size, held, last = self.device.size, self.blocks(0), None
        differing = {area: {i for i, block in enumerate(held[area]) if found[area][i * size : (i + 1) * size] != block} for area in held}
        for writes in range(len(self.device.made) + 1):
            if writes:
                area, place, block = self.device.made[writes - 1]
                is_other = found[area][place * size : (place + 1) * size] != block
                (differing[area].add if is_other else differing[area].discard)(place)
            if not any(differing.values()):
                last = writes
        return last


class Left(Outcome):
    """What a killed apply left, as the outcome of a run of which all writes up to this one were kept."""

    def __init__(self, apply, writes, shown):
        blocks = apply.blocks(writes)
        self.run = apply
        self.image = Device(apply.device.size, apply.device.counts, {area: dict(enumerate(all_of)) for area, all_of in blocks.items()})
        self.line, home, _, superblock = opening(blocks["log"], len(blocks["home"]))
        end = number_behind("end=", self.line) if self.line.startswith("recovered") else None
        sealed = apply.journal.sealed
        # a clean log has all of them home, or none was begun
        is_begun = any(area == "log" for area, _, _ in apply.device.made[:writes])
        self.n = sum(tid < end for tid, _ in sealed) if end else len(sealed) if is_begun else 0
        self.behind = {"log": blocks["log"], "home": list(blocks["home"])}
        if end:
            self.behind["log"] = [superblock, *blocks["log"][1:]]
            for number, copy in home.items():
                self.behind["home"][number] = copy
        self.left = Device(apply.device.size, apply.device.counts, {area: dict(enumerate(all_of)) for area, all_of in self.behind.items()})
        apply.shown = shown
        self.direct = {operation[1] for operation in apply.script["ops"] if operation[0] == "direct"}
        touched = {operation[2] for operation in apply.script["ops"] if operation[0] in ("write", "revoke", "read")}
        self.named = sorted(touched | self.direct)


# ---- the program beside the model


class Killer:
    """The program, its files, and how often it did what the model says."""

    def __init__(self, program, folder, draw, recover=None):
        self.program, self.folder, self.draw = program, folder, draw
        self.recover, self.systems = recover, FileSystems(folder)
        self.cases = Counter()

    def script(self):
        """A random script; its blocks are those that a file system has to spare, where others are to recover what is left."""
        if not self.recover:
            return RandomScript(self.draw).text()
        blocks = self.draw.sample(FileSystems.FREE, self.draw.choice((1, 3, 8, 20)))
        length = min(FileSystems.JOURNALS) if self.recover == recover_by_kernel else None
        return RandomScript(self.draw, blocks, length).text()

    def path(self, name):
        return str(self.folder / name)

    def jbench(self, *words):
        done = subprocess.run([str(self.program), *words], capture_output=True, text=True)
        return done.returncode, done.stdout, done.stderr

    def expect(self, wanted, found, given):
        if wanted != found:
            raise Difference(f"{given}\nwanted: {wanted}\nfound: {found}")

    def format(self, apply):
        script = apply.script
        for name in ("log", "home"):
            Path(self.path(name)).unlink(missing_ok=True)
        words = ["--block", script["block"], "--length", script["length"], "--home", script["home"], "--uuid", script["uuid"]]
        done = self.jbench("format", self.path("log"), self.path("home"), *map(str, words))
        self.expect((0, f"formatted {script['length']} blocks of {script['block']}\n", ""), done, str(words))

    def apply(self, words, lines):
        """Applies a script, and kills the program once so many lines have come, if a number is given. The answer is what it printed."""
        program = subprocess.Popen([str(self.program), *words], stdout=subprocess.PIPE, stderr=subprocess.PIPE, text=True)
        if lines is None:
            out, err = program.communicate()
            return out.splitlines(), err, program.returncode
        came = [program.stdout.readline() for _ in range(lines)]
        if self.draw.random() < 0.7:
            time.sleep(self.draw.random() * self.draw.choice((0.0002, 0.002, 0.01)))
        program.send_signal(signal.SIGKILL)
        out, err = "".join(came) + program.stdout.read(), program.stderr.read()
        return out.splitlines(), err, program.wait()

    def held(self):
        return {area: Path(self.path(area)).read_bytes() for area in ("log", "home")}

    def compare(self, text, stay, make_room, is_killed):
        apply = Apply(text, stay, make_room)
        self.format(apply)
        Path(self.path("script")).write_text(text)
        words = ["apply", self.path("log"), self.path("home"), self.path("script"), "--keep-going", *["--stay"] * stay]
        words += ["--make-room"] * make_room
        given = f"script: {text}\nwords: {words}"
        lines, err, status = self.apply(words, self.draw.randrange(len(apply.lines) + 1) if is_killed else None)
        self.expect(apply.said()[: len(err)] if is_killed and status != 0 else apply.said(), err, given)
        if is_killed and status != 0:
            self.expect(-signal.SIGKILL, status, given)
            self.cases["killed before its last line"] += len(lines) < len(apply.lines)
            wanted = apply.lines[: len(lines)]
        else:
            self.expect(0, status, given)
            wanted = apply.lines
        if lines != wanted:
            raise Difference(f"{given}\n{first_difference(chr(10).join(wanted), chr(10).join(lines))}")
        self.compare_files(apply, apply.showns[len(lines) - 1] if lines else 0, status == 0, given)
        self.cases["applies"] += 1
        self.cases["with --stay"] += stay
        self.cases["with --make-room"] += make_room
        self.cases["with an open wait at the end"] += apply.is_open

    def compare_files(self, apply, shown, has_ended, given):
        """Compares what an apply left with the model, and then what `recover` makes of it."""
        writes = apply.writes_of(self.held())
        if writes is None:
            raise Difference(f"{given}\nthe files hold what the model's device holds after none of its writes")
        if has_ended and writes != len(apply.device.made):
            raise Difference(f"{given}\nthe files hold what the model's device holds after {writes} of its {len(apply.device.made)} writes")
        left = Left(apply, writes, shown)
        if self.recover and left.line.startswith("recovered"):
            self.compare_others(left, f"{given}\nwrites: {writes}")
        self.expect((0, f"{left.line}\n", ""), self.jbench("recover", self.path("log"), self.path("home")), f"{given}\nwrites: {writes}")
        behind = {area: b"".join(blocks) for area, blocks in left.behind.items()}
        if behind != self.held():
            raise Difference(f"{given}\nwrites: {writes}\nthe recovered files hold other bytes than the model says")
        if not left.is_right():
            raise Difference(f"{given}\nwrites: {writes}\nn={left.n} shown={shown}: home is not what {left.n} transactions leave")
        self.cases["between two of its writes"] += 0 < writes < len(apply.device.made)
        self.cases["recovered, not clean"] += left.line.startswith("recovered")
        self.cases["shown committed"] += shown > 0


    def compare_others(self, left, given):
        """Compares what e2fsck or the kernel brings home of a log that is left with what the model says."""
        try:
            found = self.systems.recovered(left.image.blocks("log"), left.image.blocks("home"), self.recover)
        except Difference as difference:
            raise Difference(f"{given}\n{difference}") from None
        others = [number for number, block in found.items() if block != left.behind["home"][number]]
        if others:
            raise Difference(f"{given}\nby others these blocks are not as the model says: {others}")
        self.cases["recovered by others too"] += 1


def main(words):
    program, words = program_of(words)
    recover = {"--e2fsck": recover_by_e2fsck, "--kernel": recover_by_kernel}.get(words[0] if words else None)
    words = words[1:] if recover else words
    count, seed = count_and_seed(words, 200)
    with tempfile.TemporaryDirectory() as folder:
        draw = random.Random(seed)
        killer = Killer(program, Path(folder), draw, recover)
        try:
            for _ in range(count):
                text = killer.script()
                for is_killed in [False] + [True] * KILLS:
                    killer.compare(text, draw.random() < 0.5, draw.random() < 0.5, is_killed)
        except Difference as difference:
            print(difference)
            return 1
        print(f"{count} scripts: " + ", ".join(f"{count} {name}" for name, count in killer.cases.items()))
    return 0


if __name__ == "__main__":
    sys.exit(main(sys.argv[1:]))
