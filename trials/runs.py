#!/usr/bin/env -S python3 -B
"""Random scripts for `jbench run`: what it prints has to be, line by line, what a separate model says.

usage: runs.py [--program PATH] [--wide] [COUNT] [SEED]             runs of so many random scripts (default: 200 from seed 1)
       runs.py [--program PATH] [--wide] --shared [COUNT] [SEED]    such runs over the journal that threads share too
       runs.py [--program PATH] [--wide] --sweeps [COUNT] [SEED]    sweeps of such scripts, cut short (default: 40 from seed 1)
       runs.py [--program PATH] --e2fsck [COUNT] [SEED]    images of such runs, recovered by e2fsck (default: 40 from seed 1)
       runs.py [--program PATH] --kernel [COUNT] [SEED]    the same by the running kernel
       runs.py --alone [--wide | --e2fsck] [COUNT] [SEED]  the model alone, or beside e2fsck, without a program

The model is run_model.py, which shares nothing with the journal. Each script is run to its end, with stops at random writes, and
one in six with a stop at each write; the writes that an image keeps are drawn too. Of one image in three the opening is stopped as
well, and of some at each of its writes. Of some runs a call fails, and the script goes on. Now and then the image also goes to two files: they have to hold the model's bytes,
`jbench dump` has to print what the run printed of the log, and `jbench recover` has to end as the run's own opening does and to
leave the model's bytes. One script in twenty is made a bad one, which has to be refused before anything runs.

The model itself has to keep what is promised of home beyond the verdict: a block that is not its last copy is as home of the image
had it, and a direct write that was synced stays, until a transaction with an entry of its block is sealed.

With --wide the logs of all scripts have block numbers of 64 bits, and of one in four the home area is so large that it has blocks whose
numbers need more than 32; such a run has no image in files.

With --shared the runs of the scripts that are no bad ones, without files, are rows of the program `journal_rows`: that runs each over the
journal of one thread and over the one that threads share, and both have to print what the model says. It is the program at PATH, or
`crates/journal_rows/out/journal_rows`, which `rt run` in that crate's folder and `rt ci` leave.

With --sweeps the first operations of each script, which make few enough writes for that, are swept, with their failing calls: what
`jbench sweep` counts has to be what the model counts.

With --e2fsck and --kernel the blocks of an image's log are put into the journal of an ext4 file system, and those of its home area
in the place of blocks that no file has. e2fsck, or the kernel that mounts the file system, then brings home what the log has, and
these blocks have to read as the model says. By e2fsck no other block may change, but those of the journal and the file system's
superblock. The kernel takes no log of fewer than 1024 blocks, so the scripts are made for that length; it needs root.

At the first difference the script, the options and both texts are printed, and nothing more is run (exit status 1). The program is
`./jbench`, which is built first, or the one at PATH. Run it by hand; file systems need e2fsprogs (mke2fs, debugfs, e2fsck).
"""
import json
import os
import random
import shlex
import subprocess
import sys
import tempfile
from collections import Counter
from pathlib import Path

TOP = Path(__file__).resolve().parent.parent
sys.path.append(str(TOP / "models"))

from openings import word
from run_model import DEFAULTS, NUMBERS, TAGS, Run, capacity, dump_lines, outcome_of
from run_rows import tell_failure_sweep, tell_sweep

MOST_IMAGE_BLOCKS = 1048576  # of the home area of an image in files


# ---- random scripts


class RandomScript:
    """A script that is no bad one. Its operations are drawn as phrases, each of one operation or several."""

    MIXED = {"start": 5, "write": 12, "revoke": 4, "read": 4, "stop": 4, "request": 4, "lock": 2, "turn": 8, "commit": 3, "ckturn": 6,
             "check": 1, "status": 2, "wait": 2, "direct": 4, "sync": 2, "transaction": 6, "reuse": 1, "extend": 4, "restart": 3}
    STEADY = {"transaction": 20, "read": 2, "commit": 2, "ckturn": 1, "status": 1, "wait": 1, "direct": 4, "sync": 2, "reuse": 3}

    def __init__(self, draw, blocks=None, length=None, wide=False):
        self.draw, self.ops, self.wide = draw, [], wide
        self.size = draw.choice((1024,) * 8 + (2048, 4096))
        # how many entries the first transactions have, where they are to fill more than a descriptor or a revoke block
        many = self.draw_large_count() if not length and draw.random() < (0.1 if blocks else 0.03) else 0
        self.length = length or self.draw_length(many)
        homes = (64, 64, 64, 1, 5, 1000) + (2**32 + 6, 2**40) * wide
        self.home = FileSystems.BLOCKS if blocks else 2 * many if many else draw.choice(homes)
        self.uuid = draw.choice(("aa" * 16, draw.randbytes(16).hex(), "C03B3998" * 4))
        self.blocks = blocks or self.draw_blocks()
        self.capacity = capacity(self.size, self.length - 1, wide)
        names = draw.sample(range(10000), draw.choice((1, 2, 3, 5)))
        self.names = dict.fromkeys(names, "new")  # then "open" or "stopped", as if each start were accepted
        self.checks = draw.choice((0, 0.1, 0.1, 0.3))  # how often a round follows a transaction
        self.revokes = draw.choice((0, 0.1, 0.3, 0.5, 0.9, 1))  # how often a transaction revokes a block and does not write it
        self.directs = draw.choice((0, 0, 0.2, 0.5))  # how often a block is written directly between turns
        self.more = draw.choice((0, 0, 0.1, 0.3))  # how often a handle gets further credits or is restarted before an entry
        for _ in range(draw.choice((1, 2, 5)) if many else 0):
            revokes = 1 if blocks else draw.choice((0, 0.5, 1))  # other blocks than these may be revoked, and not written
            self.draw_transaction(self.capacity, draw.sample(range(self.home), many), revokes)
        self.draw_phrases(self.STEADY if blocks else draw.choice((self.MIXED, self.STEADY)))

    def draw_phrases(self, phrases):
        weights = [weight * self.draw.choice((0.2, 1, 1, 4)) for weight in phrases.values()]
        for _ in range(self.draw.choice((3, 10, 30, 60) if self.length < 1000 else (30, 600))):
            getattr(self, "draw_" + self.draw.choices(list(phrases), weights)[0])()

    def draw_length(self, many):
        """Blocks of the log: enough of them for transactions of so many entries."""
        if many:
            return 4 * (many + -(-many // TAGS[self.wide][self.size]) + 1) + 1 + self.draw.choice((0, 20, many))
        return self.draw.choice((17, 17, 18, 20, 24, 33, 33, 33, 40, 64, 100, self.draw.randrange(17, 300)))

    def draw_blocks(self):
        """The home blocks that operations name, few enough that they name the same ones often."""
        blocks = [self.draw.randrange(self.home) for _ in range(self.draw.choice((1, 3, 6, 12)))]
        if self.home > 2**32:  # blocks at the edge of 32 bits, some of which have the same lower 32 as others
            blocks += [self.draw.choice((0, 2**32)) + self.draw.randrange(6) for _ in range(6)] + [2**32 - 1, self.home - 1]
        return blocks + [number for number in (self.home, 2**32, 2**64 - 1) if self.draw.random() < 0.1]

    def draw_data(self):
        case = self.draw.randrange(12)
        if case == 0:
            return "c03b3998" + self.draw.randbytes(self.draw.choice((0, 4, 20))).hex()
        if case == 1:
            return f"C03B3998{self.draw.choice((1, 2, 4, 5)):08X}{self.draw.randrange(12):08X}"
        if case == 2:
            return self.draw.choice(("", "00", "00000000", "c03b39", "00000000c03b3998"))
        if case == 3:
            return self.draw.randbytes(self.size).hex()
        data = self.draw.randbytes(self.draw.randrange(1, 10)).hex()
        return data.upper() if case == 4 else data

    def draw_credits(self):
        usual = self.draw.randrange(min(self.capacity, 7) + 1)
        if self.draw.random() < 0.05:
            return self.draw.choice((self.capacity, self.capacity + 1, 2**64 - 1))
        return self.draw.choice((0, 1, 2, usual, usual, usual))

    def add_with(self, states, operation, *words):
        """Adds an operation on a handle in one of these states, where there is one, and answers its name."""
        names = [name for name, state in self.names.items() if state in states]
        if not names:
            return None
        name = self.draw.choice(names)
        self.ops.append([operation, name, *words])
        self.names[name] = {"start": "open", "stop": "stopped"}.get(operation, self.names[name])
        return name

    def draw_start(self):
        self.add_with(("new", "stopped"), "start", self.draw_credits())

    def draw_write(self):
        self.add_with(("open",), "write", self.draw.choice(self.blocks), self.draw_data())

    def draw_revoke(self):
        self.add_with(("open",), "revoke", self.draw.choice(self.blocks))

    def draw_read(self):
        self.add_with(("open",), "read", self.draw.choice(self.blocks))

    def draw_extend(self):
        self.add_with(("open",), "extend", self.draw_credits())

    def draw_restart(self):
        self.add_with(("open",), "restart", self.draw_credits())

    def draw_stop(self):
        self.add_with(("open",), "stop")

    def draw_request(self):
        self.add_with(("stopped",), "request")

    def draw_lock(self):
        self.ops.append(["lock"])

    def draw_status(self):
        self.add_with(("stopped",), "status")

    def draw_wait(self):
        self.add_with(("stopped",), "wait")

    def draw_turn(self):
        self.ops += [["turn"]] * self.draw.choice((1, 1, 2, 5))

    def draw_ckturn(self):
        self.ops += [["ckturn"]] * self.draw.choice((1, 1, 2, 5))

    def draw_part_of_round(self):
        self.ops += [["ckturn"]] * self.draw.choice((0, 0, 1, 2, 4))

    def draw_commit(self):
        self.ops.append(["commit"])

    def draw_check(self):
        self.ops.append(["check"])

    def draw_direct(self, number=None):
        self.ops.append(["direct", self.draw.choice(self.blocks) if number is None else number, self.draw_data()])

    def draw_sync(self):
        self.ops.append(["sync"])

    def draw_reuse(self):
        """A block that is written, revoked, written directly and written once more, with turns or a part of a round after each."""
        number = self.draw.choice(self.blocks)
        for revokes, others in (0, self.draw.choice((0, 1, 1))), (1, 0):
            self.draw_transaction(1 + others, [*self.draw.choices(self.blocks, k=others), number], revokes)
            self.draw_part_of_round()
        for _ in range(self.draw.choice((1, 1, 2))):
            self.draw_direct(number)
            self.draw_part_of_round()
            if self.draw.random() < 0.7:
                self.draw_sync()
        if self.draw.random() < 0.5:
            self.draw_transaction(1, [number])

    def draw_transaction(self, credits=None, blocks=None, revokes=None):
        """A handle from its start to the request, and then turns."""
        credits = self.draw_credits() if credits is None else credits
        revokes = self.revokes if revokes is None else revokes
        name = self.add_with(("new", "stopped"), "start", credits)
        if name is None:
            return
        if blocks is None:
            blocks = self.draw.choices(self.blocks, k=max(min(credits, 9) + self.draw.choice((-1, 0, 0, 0, 0, 2)), 0))
        for number in blocks:
            if self.draw.random() < 0.15:
                self.ops.append(["read", name, self.draw.choice(self.blocks)])
            if self.draw.random() < self.more:
                self.ops.append([self.draw.choice(("extend", "extend", "restart")), name, self.draw_credits()])
            is_revoke = self.draw.random() < revokes
            self.ops.append(["revoke", name, number] if is_revoke else ["write", name, number, self.draw_data()])
        self.ops += [["stop", name], ["request", name]]
        self.names[name] = "stopped"
        self.draw_turns()

    def draw_turns(self):
        """A commit, or commit turns with turns of a round and direct writes between them, and perhaps a whole round."""
        if self.draw.random() < 0.6:
            self.ops.append(["commit"])
        else:
            self.draw_single_turns()
        if self.draw.random() < self.directs:
            self.draw_direct()
        if self.draw.random() < self.checks:
            self.ops.append(["check"])

    def draw_single_turns(self):
        turns = ["turn", "turn", "ckturn" if self.checks else "turn"]
        for _ in range(self.draw.randrange(14)):
            self.ops.append([self.draw.choice(turns)])
            if self.draw.random() < self.directs / 4:
                self.draw.choice((self.draw_direct, self.draw_sync))()

    def draw_large_count(self):
        """About as many entries as a descriptor has tags, or a revoke block numbers."""
        return self.draw.choice((TAGS, NUMBERS))[self.wide][self.size] + self.draw.choice((-1, 0, 0, 1, 2))

    def text(self):
        """The script, in which a key that has its default may be missing, and a key may stand twice, of which the last counts."""
        usual = {**DEFAULTS, "ops": [["turn"]]}
        given = {"block": self.size, "length": self.length, "home": self.home, "uuid": self.uuid, "ops": self.ops}
        if self.wide:
            given["wide"] = True
        keys = [key for key, value in given.items() if key == "ops" or value != usual[key] or self.draw.random() < 0.3]
        self.draw.shuffle(keys)
        pairs = [(key, given[key]) for key in keys]
        if self.draw.random() < 0.1:
            key = self.draw.choice(keys)
            pairs.insert(0, (key, usual[key]))
        return "{%s}" % ", ".join(f"{json.dumps(key)}: {json.dumps(value)}" for key, value in pairs)


def spoiled(draw, text):
    """The text of a bad script, made of one that is none."""
    script = json.loads(text)
    case = draw.randrange(4)
    if case == 0:
        key, values = draw.choice(list(BAD_VALUES.items()))
        script[key] = draw.choice(values)
    elif case == 1:
        script["ops"].insert(draw.randrange(len(script["ops"]) + 1), draw.choice(BAD_OPERATIONS))
    elif case == 2:
        name = draw.randrange(10000)
        wrong = draw.choice(WRONG_STATES)
        words = [[each[0], name, *each[1:]] for each in wrong]
        script["ops"] = [each for each in script["ops"] if each[1:2] != [name]] + words
    else:
        return draw.choice((text[:-1], text + "}", f"[{text}]", "", "null", text.replace('"ops": ', '"op": ')))
    return json.dumps(script)


BAD_VALUES = {
    "block": (0, 512, 1000, 8192, "1024", 1024.0, True, None),
    "length": (0, 16, 1048577, 2**64, -33, 33.0, "33", [33]),
    "home": (0, 2**40 + 1, 64.5, "64", None),
    "uuid": ("", "aa" * 15, "aa" * 17, "ag" * 16, 7, None),
    "wide": (0, 1, "true", None, [True]),
    "ops": ({}, "", None, 1, [[]], [["turn"], "turn"], ["turn"], [["turn"]] * 100001),
    "size": (1024,),
    "Block": (1024,),
}
BAD_OPERATIONS = (
    ["start", 10000, 1], ["start", -1, 1], ["start", 1.0, 1], ["start", "1", 1], ["start", True, 1], ["start", 1, 2**64],
    ["start", 1, -1], ["start", 1, 1.5], ["start", 1, None], ["start", 1], ["start", 1, 1, 1], ["start"], ["Start", 1, 1],
    ["turn", 1], ["commit", 1], ["ckturn", 1], ["check", 1], ["check", []], ["turns"], [1], [None], [["turn"]], [], {"turn": 1},
    ["lock", 1], ["sync", 1], ["sync", []], ["direct"], ["direct", 1], ["direct", 1, 0], ["direct", 1, "0"], ["direct", 1, "0g"],
    ["direct", -1, "00"], ["direct", 1.0, "00"], ["direct", 2**64, "00"], ["direct", "1", "00"], ["direct", 1, "00", 1],
    ["direct", 1, "00" * 4097],
)
WRONG_STATES = (
    [["stop"]], [["read", 1]], [["write", 1, "00"]], [["revoke", 1]], [["request"]], [["status"]], [["wait"]],
    [["start", 1], ["start", 1]], [["start", 1], ["request"]], [["start", 1], ["status"]], [["start", 1], ["wait"]],
    [["start", 1], ["stop"], ["stop"]], [["start", 1], ["stop"], ["write", 1, "00"]], [["start", 1], ["stop"], ["read", 1]],
    [["start", 1], ["write", 1, "0"]], [["start", 1], ["write", 1, "0g"]], [["start", 1], ["write", 1, "00" * 4097]],
    [["start", 1], ["write", 1, 0]], [["start", 1], ["write", 1]], [["start", 1], ["write", 1.0, "00"]],
    [["start", 1], ["write", 2**64, "00"]], [["start", 1], ["read", 1, 1]], [["start", 1], ["read"]], [["start", 1], ["read", "1"]],
    [["start", 1], ["stop"], ["revoke", 1]], [["start", 1], ["revoke"]], [["start", 1], ["revoke", 1, "00"]],
    [["start", 1], ["revoke", -1]], [["start", 1], ["revoke", 1.0]], [["start", 1], ["revoke", 2**64]],
    [["start", 1], ["stop", 1]], [["start", 1], ["extend"]], [["start", 1], ["restart", "1"]], [["start", 1], ["stop"], ["extend", 1]],
    [["start", 1], ["stop"], ["restart", 1]], [["extend", 1]], [["restart", 1]], [["start", 1], ["restart", 1], ["status"]],
)


# ---- the program beside the model


class Difference(Exception):
    """What the program does and what the model says, where these are not the same."""


def draw_kept(draw, numbers, writes):
    """Some of these numbers, now and then with one that no unflushed write has."""
    share = draw.choice((0, 0.5, 0.5, 0.5, 0.9, 1))
    kept = [number for number in numbers if draw.random() < share]
    if draw.random() < 0.1:
        kept.append(draw.choice((draw.randrange(1, writes + 2), writes + 1, 2**64 - 1)))
    draw.shuffle(kept)
    return kept


def stopped_at(draw, text, stop, writes):
    """The options of a run that stops there, with some of the writes kept that are not flushed then."""
    options = {} if stop is None else {"stop": stop}
    kept = draw_kept(draw, Run(text, stop).device.unflushed_numbers(), writes)
    return {**options, "keep": kept} if kept or draw.random() < 0.2 else options


def cases_of(draw, text):
    """The options of the runs of a script."""
    writes = Run(text).device.writes
    is_each = writes <= 150 and draw.random() < 1 / 6
    for stop in [None, *(range(1, writes + 2) if is_each else draw.choices(range(1, writes + 2), k=5))]:
        options = stopped_at(draw, text, stop, writes)
        yield options
        if draw.random() < 1 / 3:
            yield from stops_of_opening(draw, options, outcome_of(text, options).writes)
    yield {**options, "keep2": [1, 2]}
    yield from failing_calls(random.Random(text), text)


def failing_calls(draw, text):
    """The options of runs of which a call fails, with some of the writes kept that are not flushed at the end."""
    calls = Run(text).device.calls
    for call in {draw.randrange(1, calls + 2) for _ in range(2)}:
        device = Run(text, fail=call).device
        yield {"fail": call, "keep": draw_kept(draw, device.unflushed_numbers(), device.writes)}


def stops_of_opening(draw, options, writes):
    """The same options with a stop at a write of the opening, which makes so many, or with a stop at each of them."""
    is_each = writes <= 150 and draw.random() < 1 / 5
    for stop in range(1, writes + 2) if is_each else [draw.randrange(1, writes + 2)]:
        yield {**options, "stop2": stop, "keep2": draw_kept(draw, range(1, stop + 1), writes)}


def words_of(options):
    words = []
    for name, value in options.items():
        words += [f"--{name}", str(value) if isinstance(value, int) else ",".join(map(str, value))]
    return words


def blocks_of(path, size):
    data = path.read_bytes()
    return [data[at : at + size] for at in range(0, len(data), size)]


def first_difference(expected, found):
    """The first line in which two texts differ."""
    expected, found = expected.splitlines(), found.splitlines()
    for i in range(max(len(expected), len(found))):
        if expected[i : i + 1] != found[i : i + 1]:
            return f"line {i + 1}: expected {expected[i : i + 1]}, found {found[i : i + 1]}"
    return "the same lines"


class Comparison:
    """The program, and how often it did what the model says."""

    def __init__(self, program, folder, wide):
        self.program, self.folder, self.wide = program, folder, wide
        self.cases, self.answers = Counter(), Counter()

    def path(self, name, text=None):
        path = self.folder / name
        if text is not None:
            path.write_text(text)
        return path

    def expect(self, status, output, messages, words, given):
        """Runs the program and compares its exit status, its output and its messages."""
        done = subprocess.run([str(word) for word in (self.program, *words)], capture_output=True, text=True)
        if (done.returncode, done.stdout, done.stderr) != (status, output, messages):
            raise Difference("\n".join([
                f"script: {given}", f"words: {shlex.join(map(str, words))}", first_difference(output, done.stdout),
                f"expected: exit {status}, messages {messages!r}, and", output,
                f"found: exit {done.returncode}, messages {done.stderr!r}, and", done.stdout]))

    def compare_bad(self, text):
        """A script that is none: two lines say so, and why. `check` has the same reason on one."""
        path = self.path("script", text)
        done = subprocess.run([str(self.program), "check", str(path)], capture_output=True, text=True)
        why = done.stderr.removeprefix("jbench: bad script: ")
        self.expect(1, "", f"jbench: bad script\n  {why}", ["run", path], text[:100000])
        self.cases["bad scripts"] += 1

    def compare(self, text, options, with_files=False):
        """Compares a run, and with files what stands in these; answers what the model says of it."""
        outcome = outcome_of(text, options)
        if not outcome.keeps_promises():
            raise Difference(f"script: {text}\noptions: {options}\nthe model itself leaves a block that is not as promised")
        words = ["run", self.path("script", text), *words_of(options)]
        if with_files:
            words += ["--image-log", self.path("log"), "--image-home", self.path("home")]
        lines = "".join(f"{line}\n" for line in outcome.lines)
        self.expect(2 if lines.endswith("false\n") else 0, lines, "", words, text)
        self.count(outcome)
        if with_files:
            self.compare_image(outcome, text, shlex.join(map(str, words)))
        return outcome

    def end(self, text):
        """All runs of a script were compared."""

    def compare_image(self, outcome, text, words):
        """Compares the image in files with the model's, and what `dump` and `recover` make of it."""
        given = f"{text}\nimage of: {words}"
        self.compare_files(outcome.image, given)
        dump = "".join(f"{line}\n" for line in dump_lines(outcome.image.blocks("log")))
        self.expect(0, dump, "", ["dump", self.path("log")], given)
        line, behind = outcome.recovered()
        self.expect(0, f"{line}\n", "", ["recover", self.path("log"), self.path("home")], given)
        self.compare_files(behind, f"{given}, recovered")
        self.cases["images in files"] += 1

    def compare_files(self, device, given):
        for area in ("log", "home"):
            found, expected = blocks_of(self.path(area), device.size), device.blocks(area)
            if found != expected:
                others = [place for place, block in enumerate(expected) if found[place : place + 1] != [block]]
                raise Difference(f"script: {given}\n{area} has {len(found)} blocks of {len(expected)}; otherwise read {others}")

    def count(self, outcome):
        run, size = outcome.run, outcome.image.size
        tags, numbers = TAGS[run.journal.wide][size], NUMBERS[run.journal.wide][size]
        sealed = [list(entries.values()) for _, entries in run.journal.sealed]
        self.cases["runs"] += 1
        self.cases["stopped at a write"] += run.device.is_stopped
        self.cases["with a failed call"] += run.journal.is_aborted
        self.cases["opened twice"] += any(line.startswith("reopen") for line in outcome.lines)
        self.cases["over several laps"] += max(run.journal.ends.values()) > run.journal.ring
        self.cases["with several descriptors"] += any(len(copies) - copies.count(None) > tags for copies in sealed)
        self.cases["with revokes"] += any(None in copies for copies in sealed)
        self.cases["with several revoke blocks"] += any(copies.count(None) > numbers for copies in sealed)
        self.cases["of wide logs"] += run.journal.wide
        self.cases["with numbers above 32 bits"] += any(number >= 2**32 for _, entries in run.journal.sealed for number in entries)
        self.cases["with direct writes"] += bool(run.journal.direct)
        self.answers["lines"] += len(outcome.lines)
        for line in outcome.lines:
            told = line.partition(" = ")[2]
            if told.startswith(("refused", "skipped", "waiting", "released")):
                self.answers[told if told.startswith("refused") else told.split()[0]] += 1
            if told and line.startswith(("extend ", "restart ")):
                self.answers[f"{line.split()[0]} {'accepted' if told[0] in 'o0123456789' else 'not'}"] += 1
            self.answers["escaped copies in dumps"] += line.endswith(" escaped")
            self.answers["direct writes"] += line.startswith("direct ") and line.endswith(" = ok")

    def text(self):
        return "\n".join(", ".join(f"{count} {name}" for name, count in each.items()) for each in (self.cases, self.answers))


def compare_scripts(comparison, count, seed):
    for each in range(seed, seed + count):
        draw = random.Random(each)
        script = RandomScript(draw, wide=comparison.wide)
        text = script.text()
        if draw.random() < 1 / 20:
            comparison.compare_bad(spoiled(draw, text))
            continue
        comparison.cases["scripts"] += 1
        for options in cases_of(draw, text):
            comparison.compare(text, options, draw.random() < 1 / 10 and script.home <= MOST_IMAGE_BLOCKS)
        comparison.end(text)


def compare_sweeps(comparison, count, seed):
    for each in range(seed, seed + count):
        length = random.Random(each).choice((17, 18, 25, 33))
        text = cut_script(RandomScript(random.Random(each), length=length, wide=comparison.wide).text())
        lines = f"sweep {tell_sweep(text)}\nfail {tell_failure_sweep(text)}\n"
        comparison.expect(0, lines, "", ["sweep", comparison.path("script", text), "--fail"], text)
        comparison.cases["sweeps"] += 1
        for line in lines.splitlines():
            for name, _, number in (word.partition("=") for word in line.split()[1:]):
                comparison.answers[name] += int(number)


def cut_script(text, most=14):
    """A script of its first operations, as many as make no more writes than so many."""
    script = json.loads(text)
    while Run(json.dumps(script)).device.writes > most:
        script["ops"].pop()
    return json.dumps(script)


class Alone(Comparison):
    """The model without a program: what it says is compared with what is promised, and with nothing else."""

    def expect(self, *_):
        pass

    def compare_bad(self, *_):
        pass

    def compare_image(self, *_):
        pass


class Shared(Comparison):
    """Runs over both journals, as rows of the program `journal_rows`: a file of them for each script."""

    PROGRAM = TOP / "crates" / "journal_rows" / "out" / "journal_rows"

    def __init__(self, program, folder, wide):
        super().__init__(program, folder, wide)
        self.rows = []

    def compare_bad(self, text):
        """A bad script is refused before there is a journal."""

    def compare(self, text, options, with_files=False):
        outcome = outcome_of(text, options)
        words = shlex.join(["jbench", "run", "a.json", *words_of(options)])
        lines = "\n".join([*outcome.lines, f"exit {2 if outcome.lines[-1].endswith('false') else 0}"])
        self.rows.append(f"== {words}\n{words}\n{text}\n-->\n{lines}\n")
        self.count(outcome)
        return outcome

    def end(self, text):
        path = self.path("runs.rows", "\n".join(["# Runs of a random script.\nrows run\n", *self.rows]))
        self.expect(0, f"{path}: {len(self.rows)} of {len(self.rows)} rows held\n", "", [path], text)
        self.rows = []


# ---- e2fsck and the kernel


def command(*words, text=None, statuses=(0,)):
    done = subprocess.run([str(word) for word in words], input=text, capture_output=True, text=True)
    assert done.returncode in statuses, (words, done)
    return done.stdout


def recover_by_e2fsck(image, _):
    told = command("e2fsck", "-f", "-y", "-E", "journal_only", image, statuses=(0, 1))
    assert "recovering journal" in told, told


def recover_by_kernel(image, folder):
    mounted = folder / "mounted"
    mounted.mkdir(exist_ok=True)
    command("mount", "-o", "loop,noinit_itable", image, mounted)
    command("umount", mounted)


class FileSystems:
    """File systems with a journal that is still to be recovered, made once for each block size and length of the journal."""

    JOURNALS = {1024: 8192, 6144: 20480}  # how many blocks the file system has, by those of its journal
    BLOCKS, FREE = JOURNALS[1024], range(7000, 7040)

    def __init__(self, folder):
        self.folder, self.made = folder, {}

    def with_journal(self, size, length):
        """The blocks of a file system, and the places of those of its journal, which has as many as the log at least."""
        journal = min(journal for journal in self.JOURNALS if journal >= length)
        if (size, journal) not in self.made:
            image = self.folder / "new"
            image.write_bytes(b"")
            os.truncate(image, self.JOURNALS[journal] * size)
            command("mke2fs", "-q", "-F", "-t", "ext4", "-b", size, "-O", "^metadata_csum,^64bit,^resize_inode,has_journal",
                    "-J", f"size={journal * size // 2**20}", "-N", 64, image)
            command("debugfs", "-w", "-R", "feature needs_recovery", image)
            told = command("debugfs", image, text="".join(f"bmap <8> {i}\n" for i in range(journal)))
            places = [int(line) for line in told.splitlines() if line.isdigit()]
            told = command("debugfs", "-R", f"testb {self.FREE[0]} {len(self.FREE)}", image)
            assert len(places) == journal and told.count("not in use") == len(self.FREE)
            self.made[size, journal] = blocks_of(image, size), places
        return self.made[size, journal]

    def recovered(self, log, home, recover):
        """What these home blocks, in the place of those that no file has, become where a file system's journal is this log."""
        size = len(log[0])
        blocks, places = self.with_journal(size, len(log))
        before = list(blocks)
        for place, block in [*zip(places, log), *((number, home[number]) for number in self.FREE)]:
            before[place] = block
        image = self.folder / "image"
        image.write_bytes(b"".join(before))
        recover(image, self.folder)
        behind = blocks_of(image, size)
        assert word(behind[places[0]], 0x1C) == 0, "the log is left as it was"
        own = {*places, *self.FREE, 1 if size == 1024 else 0}  # the last is the file system's superblock
        others = [place for place, block in enumerate(behind) if place not in own and block != before[place]]
        if others and recover == recover_by_e2fsck:
            raise Difference(f"e2fsck changes the blocks {others}")
        return {number: behind[number] for number in self.FREE}


def compare_by(recover, length):
    """Compares what e2fsck or the kernel makes of images with what their openings leave."""

    def compare_images(comparison, count, seed):
        systems = FileSystems(comparison.folder)
        for each in range(seed, seed + count):
            draw = random.Random(each)
            blocks = draw.sample(FileSystems.FREE, draw.choice((1, 3, 8, 20)))
            text = RandomScript(draw, blocks, length).text()
            comparison.cases["scripts"] += 1
            writes = Run(text).device.writes
            for _ in range(3):
                options = stopped_at(draw, text, draw.choice((None, draw.randrange(1, writes + 2))), writes)
                outcome = comparison.compare(text, options, with_files=True)
                if outcome.line.startswith("recovered"):
                    compare_recovered(comparison, systems, outcome, recover, f"script: {text}\noptions: {options}")

    return compare_images


def compare_recovered(comparison, systems, outcome, recover, given):
    home = outcome.image.blocks("home")
    try:
        found = systems.recovered(outcome.image.blocks("log"), home, recover)
    except Difference as difference:
        raise Difference(f"{given}\n{difference}") from None
    others = [number for number, block in found.items() if block != outcome.home(number)]
    if others:
        raise Difference(f"{given}\nby others these blocks are not as the model says: {others}")
    comparison.cases["recovered by others"] += 1
    comparison.answers["blocks that others brought home"] += sum(block != home[number] for number, block in found.items())


# ---- words


def program_of(words):
    """The program at the path behind --program, or `./jbench`, which is built first; and the words behind that."""
    if words[:1] == ["--program"]:
        return Path(words[1]).resolve(), words[2:]
    program = TOP / "jbench"
    subprocess.run([program, "build"], check=True)
    return program, words


def count_and_seed(words, usual):
    return [int(text) for text in words] + [usual, 1][len(words) :]


def compare_all(usual, words, begin):
    """Runs a comparison so many times, and tells its cases or the first difference. The answer is the exit status.

    `begin` gives, for the program, a new folder and the draws of a seed, what is compared: its `cases`, and `once` for one time more.
    """
    program, words = program_of(words)
    count, seed = count_and_seed(words, usual)
    with tempfile.TemporaryDirectory() as folder:
        compared = begin(program, Path(folder), random.Random(seed))
        try:
            for _ in range(count):
                compared.once()
        except Difference as difference:
            print(difference)
            return 1
    print(", ".join(f"{number} {name}" for name, number in compared.cases.items()))
    return 0


def main():
    words = sys.argv[1:]
    program, kind = None, Comparison
    if words[:1] == ["--program"]:
        program, words = Path(words[1]).absolute(), words[2:]
    elif words[:1] == ["--alone"]:
        kind, words = Alone, words[1:]
    wide = words[:1] == ["--wide"]
    words = words[wide:]
    comparing, usual = compare_scripts, 200
    if words[:1] == ["--shared"]:
        kind, words = Shared, words[1:]
        program = program or kind.PROGRAM
    elif words[:1] == ["--sweeps"]:
        comparing, usual, words = compare_sweeps, 40, words[1:]
    elif words[:1] == ["--e2fsck"]:
        comparing, usual, words = compare_by(recover_by_e2fsck, None), 40, words[1:]
    elif words[:1] == ["--kernel"]:
        comparing, usual, words = compare_by(recover_by_kernel, min(FileSystems.JOURNALS)), 40, words[1:]
    count, seed = count_and_seed(words, usual)
    if program is None and kind is Comparison:
        program = TOP / "jbench"
        subprocess.run([program, "build"], check=True)
    with tempfile.TemporaryDirectory() as folder:
        comparison = kind(program, Path(folder), wide)
        try:
            comparing(comparison, count, seed)
        except Difference as difference:
            print(difference)
            sys.exit(1)
        finally:
            print(comparison.text())


if __name__ == "__main__":
    main()
