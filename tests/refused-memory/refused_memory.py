#!/usr/bin/env -S python3 -B
"""Each request for memory of `jbench` refused in turn: no answer but that of the call that was refused may be another one.

usage: refused_memory.py [--program PATH] [--tests PATH].. [COUNT [SEED]]
    the rows below, and so many random scripts (default: 0, from seed 1)

A wrapper of the C library's malloc and realloc (refused_memory.c) refuses one request of the program, for each of its requests in turn; a
new thread is a request too.
The scripts are the rows below, in which each operation that can be refused for want of memory is made again at once, and after it
starts try how many credits are held: one of just those that are left, and one of one more. Of the program that is refused request K

- `run` prints the lines of a separate model (run_model.py) in which one operation is refused `1 Memory`, the one after it answers what
  that one would have, and every other line is as in the row, with the verdict ok; or those of a run of which one device call fails, for
  the device of a run is in memory too; or the program itself is refused, its device or the opening of what is left, and then it prints
  a front of the row's lines and `jbench: refusal 1 Memory` or `2 Device`;
- `apply` does what killed_apply.py asks of one that is killed: the lines of the model up to the refusal, files as they are after one of
  the model's writes, and `recover` brings home all that was committed and nothing else;
- `recover`, which opens a log, `format`, `upgrade`, `dump`, `show` and `check` come to what they come to with ample memory, or are
  refused; a `recover` that is refused has left both files as they were; and the same command made again, with ample memory, does all.

`threads` with two clients prints the seven lines of a run with ample memory, or nothing but `jbench: client I refused 1 Memory`; or the
device of these clients fails, which is in memory too, and each that is refused then is refused `3 Aborted`; or the program itself is refused.
Such clients are also a test of `service_tests`, which looks at what came of them itself: one that was refused Memory ended alone, with
its handle stopped, and what is left opens to all receipts. A close that has to finish a commit is a test of `library_tests`: where it is
refused Memory it has written nothing. Each is run where a --tests names the built tests of its crate, as `rt test` and `rt ci` leave them in
its `out/`. Which request is the Kth depends on how the threads run, so each K is tried a few times.

The seal of a transaction of six copies asks for memory as often as that of one: it copies no block.

It writes a line for each of these, with how many requests there were and how many answers were false, and names each false answer. The
last line is `N passed, M failed`, which counts these lines; where one failed the status is 1. The program is `./jbench`, which is built
first, or the one at PATH. `./test` calls it after `rt ci`, with what that built. It needs glibc of Linux on x86-64, and the kit's C
compiler, or the system's where no kit is there; it takes less than a processor minute, and some more of waiting where others work too.
"""
import json
import os
import random
import shutil
import subprocess
import sys
import tempfile
from collections import Counter
from pathlib import Path

HERE = Path(__file__).resolve().parent
TOP = HERE.parent.parent
sys.path += [str(TOP / "models"), str(TOP / "trials")]

from killed_apply import Apply, Killer
from run_model import Outcome, Refused, Run, need
from refusals import refusal_lines
from runs import Difference, RandomScript, count_and_seed, first_difference, program_of

NEVER = 1_000_000  # a device call that no script comes to: after a failed call the script goes on
MEMORY, DEVICE = refusal_lines("1 Memory"), refusal_lines("2 Device")
CLIENTS = "service::refused::a_client_without_memory_ends_alone"  # the test of clients in threads
CLOSE = "closes::a_close_takes_its_memory_before_its_first_call"  # the test of a close that has to finish a commit
TIMES = 4  # how often each of its requests is refused


# ---- the rows


def transaction(name, *writes):
    """A transaction of one handle that writes these blocks, each with these bytes, and is committed."""
    return [["start", name, len(writes)], *(["write", name, block, data] for block, data in writes), ["stop", name], ["request", name], ["commit"]]


ROWS = {
    "two_writes": [*transaction(1, (9, "11"), (10, "22")), ["wait", 1]],
    "write_and_revoke": [
        ["start", 1, 2], ["write", 1, 9, "11"], ["write", 1, 5, "22"], ["revoke", 1, 9], ["read", 1, 9], ["read", 1, 5], ["stop", 1],
        ["request", 1], ["commit"], ["start", 2, 1], ["revoke", 2, 5], ["write", 2, 5, "33"], ["stop", 2], ["request", 2], ["commit"]],
    "full_ring": [
        *(operation for i in range(1, 12) for operation in transaction(i, (5, f"{i:02x}"))), ["check"], ["commit"], ["status", 11]],
    "direct_write": [
        *transaction(1, (8, "aa")), ["start", 2, 1], ["revoke", 2, 8], ["stop", 2], ["request", 2], ["direct", 8, "cc"], ["commit"],
        ["direct", 8, "bb"], ["sync"]],
    # the list of a transaction's handles has to grow at the restart
    "restart": [
        ["start", 1, 1], ["write", 1, 5, "01"], ["restart", 1, 1], ["write", 1, 6, "02"], ["stop", 1], ["request", 1], ["commit"]],
    "further_handles": [
        ["start", 1, 1], ["write", 1, 5, "01"], ["write", 1, 6, "02"], ["extend", 1, 1], ["write", 1, 6, "03"], ["extend", 1, 5],
        ["extend", 1, 7], ["restart", 1, 1], ["write", 1, 7, "04"], ["read", 1, 6], ["stop", 1], ["request", 1], ["turn"],
        ["start", 2, 1], ["read", 2, 5], ["read", 2, 40], ["write", 2, 5, "05"], ["stop", 2], *[["turn"]] * 9, ["wait", 1],
        ["ckturn"], ["request", 2], ["commit"], ["check"]],
}
REFUSABLE = ("start", "restart", "write", "revoke", "read", "direct", "commit", "turn")  # what can be refused for want of memory
PROBE, BEYOND = 9001, 9002  # names of handles that no row has


def made_again(operation):
    """An operation that is made twice: where the first is refused the second is the same call, made again."""
    name, *words = operation
    if name in ("start", "restart"):
        return [operation, ["stop", words[0]], ["start", *words]]
    return [operation] * (2 if name in REFUSABLE else 1)


class Script:
    """A row with its operations made again, and with starts that try how many credits are held."""

    def __init__(self, operations, is_whole=True):
        self.operations, self.again = [], {}
        for operation in operations:
            at = len(self.operations)
            self.operations += made_again(operation)
            if len(self.operations) > at + 1:
                self.again[at] = len(self.operations) - 1
            if is_whole and len(self.operations) > at + 1:
                self.probe()
        self.text = json.dumps({"ops": self.operations})

    def probe(self):
        journal = Run(json.dumps({"ops": self.operations})).journal
        left = journal.capacity - journal.held()
        for name, credits in ((PROBE, left), (BEYOND, left + 1)):
            self.operations += [["start", name, credits], ["stop", name]]


# ---- the model of a run in which an operation is refused for want of memory


class Refusing(Run):
    """A run in which the operation at this place is refused for want of memory, if it can be."""

    def __init__(self, text, place):
        self.place, self.count = place, -1
        super().__init__(text)

    def line(self, operation):
        self.count += 1
        if self.count != self.place:
            return super().line(operation)
        kept = {name: getattr(self, f"do_{name}") for name in REFUSABLE}
        for name in kept:
            setattr(self, f"do_{name}", getattr(self, f"refuse_{name}", self.refuse))
        line = super().line(operation)
        for name, method in kept.items():
            setattr(self, f"do_{name}", method)
        return line

    def refuse(self, *_):
        raise Refused("1 Memory")

    def refuse_start(self, name, credits):
        self.names[name] = None
        self.journal.test_credits(credits)
        self.refuse()

    def refuse_restart(self, name, credits):
        self.names[name].is_open = False
        self.journal.test_credits(credits)
        self.refuse()

    def refuse_revoke(self, name, number):
        """A write is another case: the program's own block is taken before the journal is asked."""
        self.journal.test_block(number)
        if number not in self.journal.entries and self.names[name].left == 0:
            raise Refused("4 NoCredit")
        self.refuse()

    def refuse_turn(self):
        """Memory is taken at the seal alone, where the ring has room."""
        journal = self.journal
        if journal.calls or not journal.is_locked or any(handle.is_open for handle in journal.handles):
            return journal.turn()
        free = journal.ring - (journal.ends[journal.number - 1] - journal.ends[journal.released])
        if need(journal.entries, self.device.size, journal.wide) > free:
            raise Refused("11 NeedSpace")
        raise Refused("1 Memory")

    def refuse_commit(self):
        while self.refuse_turn() not in ("idle", "waiting"):
            pass
        return self.journal.mark


class Wanted:
    """What a run of a script may print where a request is refused, by what was refused."""

    def __init__(self, text):
        self.row = self.lines_of(Run(text, fail=NEVER))
        self.operations = json.loads(text)["ops"]
        self.by_lines = {self.row: "as with ample memory"}
        self.places = {}
        for place in range(len(self.operations)):
            lines = self.lines_of(Refusing(text, place))
            if "= refused 1 Memory\n" in lines:
                self.by_lines[lines] = "an operation is refused"
                self.places[lines] = place
        for call in range(1, Run(text).device.calls + 1):
            self.by_lines.setdefault(self.lines_of(Run(text, fail=call)), "a device call fails")

    @staticmethod
    def lines_of(run):
        return "".join(f"{line}\n" for line in Outcome(run, ()).lines)

    def is_made_again(self, lines, again):
        """Whether the operation that is refused in these lines answers, made again, what it would have answered."""
        place = self.places[lines]
        if place not in again:
            return True
        answer = lambda text, at: text.splitlines()[at].partition(" = ")[2]
        return answer(lines, again[place]) == answer(self.row, place)


# ---- the program


def compiler():
    """How the kit's C compiler is called, or the system's where no kit is there."""
    if not shutil.which("rt"):
        return ["cc"]
    kit = Path(subprocess.run(["rt", "doc"], capture_output=True, text=True, check=True).stdout.strip()).parent
    return [kit / "toolchain" / "bin" / "clang", "-fuse-ld=lld"]


class Refuser:
    """A program under the wrapper. `done` counts the requests that were refused, the lines that passed, and those that failed."""

    def __init__(self, program, folder, done=None):
        self.program, self.folder, self.done = program, folder, Counter() if done is None else done
        self.wrapper, self.counted, self.calls = folder / "wrapper.so", folder / "counted", folder / "calls"
        subprocess.run([*compiler(), "-shared", "-fPIC", "-O2", "-nostdlib", "-o", self.wrapper, HERE / "refused_memory.c"], check=True)

    def path(self, name, text=None):
        path = self.folder / name
        if text is not None:
            path.write_text(text)
        return path

    def jbench(self, words, refused=0):
        wrapped = {"LD_PRELOAD": self.wrapper, "COUNT": self.counted, "CALLS": self.calls, "REFUSED": refused}
        environment = {**os.environ, **{name: str(value) for name, value in wrapped.items()}}
        done = subprocess.run([str(word) for word in (self.program, *words)], capture_output=True, text=True, env=environment, timeout=120)
        return done.returncode, done.stdout, done.stderr

    def each(self, name, words, judge, before=lambda: None, times=1):
        """Refuses each request of the program in turn, so many times. `judge` says what it came to, or raises what is false."""
        before()
        self.counted.unlink(missing_ok=True)
        self.jbench(words)
        count, cases = int(self.counted.read_text()), Counter()
        false = 0
        for refused in list(range(1, count + 1)) * times:
            before()
            try:
                cases[judge(*self.jbench(words, refused))] += 1
            except (Difference, subprocess.TimeoutExpired) as difference:
                false += 1
                print(f"{name}: request {refused} of {count} refused: {difference}")
        self.done["requests"] += count
        self.note(count > 0 and false == 0)
        told = ", ".join(f"{times} {case}" for case, times in sorted(cases.items()))
        print(f"{name}: requests={count} false={false} ({told})", flush=True)
        return cases

    def note(self, passed):
        self.done["passed" if passed else "failed"] += 1


def differ(found, wanted=""):
    raise Difference(f"found: {found}\nwanted: {wanted}")


def judge_runs(refuser, name, script):
    """Runs of a script. An operation that is refused for want of memory answers as in the row, made again."""
    wanted = Wanted(script.text)
    seen = set()

    def judge(status, output, messages):
        if status == 1 and messages in (MEMORY, DEVICE) and wanted.row.startswith(output) and output[-1:] in ("", "\n"):
            return "of the program, its device or the opening"
        if (status, messages) != (0, "") or output not in wanted.by_lines:
            differ((status, messages), first_difference(wanted.row, output))
        if output in wanted.places:
            seen.add(wanted.places[output])
            if not wanted.is_made_again(output, script.again):
                differ(output, wanted.row)
        return wanted.by_lines[output]

    refuser.each(name, ["run", refuser.path("script", script.text), "--fail", NEVER], judge)
    return wanted, seen


def judge_row(refuser, name, operations):
    """Runs of a row; the answer is which words of operations were refused in it."""
    script = Script(operations)
    wanted, seen = judge_runs(refuser, f"run {name}", script)
    kinds = Counter(wanted.operations[place][0] for place in seen)
    print(f"  refused and made again: {', '.join(f'{kind} {times}' for kind, times in sorted(kinds.items()))}")
    return set(kinds)


# ---- clients in threads


def judge_threads(refuser, script):
    """Runs of two clients in threads, by the program. Which of them is refused is up to how they run."""
    verdicts = "".join(f"verdict {name} ok\n" for name in ("credits", "receipts", "order", "recovery"))
    whole = (0, f"clients 2\nhandles 4\nreceipts 4\n{verdicts}", "")
    refused = lambda number, cause: f"jbench: client {number} refused {cause}\n"
    cases = {
        whole: "as with ample memory",
        (1, "", MEMORY): "of the program itself",
        (1, "", DEVICE): "of the program itself",
        (1, "", refused(1, "3 Aborted") + refused(2, "3 Aborted")): "a device call fails",
    }
    for number in (1, 2):
        cases[1, "", refused(number, "1 Memory")] = "a client is refused"
        cases[1, "", refused(number, "3 Aborted")] = "a device call fails"

    def judge(*found):
        if found not in cases:
            differ(found)
        return cases[found]

    if refuser.jbench(["threads", script]) != whole:
        differ("clients are refused with ample memory")
    seen = refuser.each("threads", ["threads", script], judge, times=TIMES)
    if not seen["a client is refused"]:
        refuser.note(False)
        print("never refused: a client of the program")


def judge_clients(refuser, tests):
    """Runs of the test of clients: it passes, whichever request is refused. With ample memory nothing is refused."""
    clients = Refuser(tests, refuser.folder, refuser.done)
    cases = {
        "": "of the clients' making or of a thread",
        "refused=0 None\n": "as with ample memory",
        "refused=1 Some(Memory)\n": "a client is refused",
        "refused=1 Some(Aborted)\n": "a device call fails",
        "refused=2 Some(Aborted)\n": "a device call fails",
    }

    judge_test(clients, "clients in threads", CLIENTS, cases, "a client is refused", TIMES)


def judge_close(refuser, tests):
    """Runs of the test of a close that has to finish a commit: it passes, whichever request is refused. With ample memory it closes."""
    cases = {
        "": "before the close",
        "closed\n": "as with ample memory",
        "refused Memory\n": "the close is refused",
        "refused Device\n": "a device call fails",
    }
    judge_test(Refuser(tests, refuser.folder, refuser.done), "close after a commit", CLOSE, cases, "the close is refused", 1)


def judge_test(refuser, name, test, cases, wanted, times):
    """Runs of a test, which says what it came to. One of its requests has to come to what is wanted."""

    def judge(status, output, messages):
        told, _, ended = output.rpartition("\ntest result: ")
        if (status, messages, ended) != (0, "", "ok\n") or told not in cases:
            differ((status, output, messages))
        return cases[told]

    if judge(*refuser.jbench([test])) != "as with ample memory":
        differ(f"{name}: refused with ample memory")
    seen = refuser.each(name, [test], judge, times=times)
    if not seen[wanted]:
        refuser.note(False)
        print(f"{name}: never came to this: {wanted}")


JUDGES = {"library_tests_tests": judge_close, "service_tests_tests": judge_clients}  # by the name of the program that has the test


def tests_of(words):
    """The program after each --tests, with what judges it; and the words after these."""
    tests = {}
    while words[:1] == ["--tests"]:
        path, words = Path(words[1]).resolve(), words[2:]
        if path.name not in JUDGES:
            sys.exit(f"{path}: none of {', '.join(JUDGES)}")
        tests[path] = JUDGES[path.name]
    return tests, words


# ---- how often a seal asks for memory


def judge_seals(refuser):
    """The seal of a transaction of six copies makes as many requests for memory as that of one, each in a journal that was just made."""
    from memory_requests import Applied, seal_of

    counts = {}
    for copies in (1, 6):
        *_, (word, _, sizes, _), _ = Applied(refuser, seal_of(copies)).by_call()
        counts[copies] = len(sizes) if word == "turn sealed" else None
    is_equal = counts[1] is not None and counts[1] == counts[6]
    refuser.note(is_equal)
    print(f"seal: requests={counts[1]} of one copy, {counts[6]} of six, false={int(not is_equal)}")


# ---- over files


def judge_apply(refuser, name, text, stay):
    """Applies of a script to a log that was just formatted."""
    killer = Killer(refuser.program, refuser.folder, random.Random(1))
    apply = Apply(text, stay)

    def judge(status, output, messages):
        lines = output.splitlines()
        given = f"script: {text}"
        if status == 0 and messages == "" and lines == apply.lines:
            case = "as with ample memory"
        elif status == 1 and messages == MEMORY and lines and lines[-1].endswith(" = refused 1 Memory"):
            case = "an operation is refused"
            if lines[:-1] != apply.lines[: len(lines) - 1] or lines[-1].split(" = ")[0] != apply.lines[len(lines) - 1].split(" = ")[0]:
                differ(lines, apply.lines)
            lines = lines[:-1]
        elif status == 1 and messages in (MEMORY, DEVICE) and lines == apply.lines[: len(lines)]:
            case = "of the program itself, the opening or the close"
        else:
            differ((status, output, messages), apply.lines)
        killer.compare_files(Apply(text, stay), apply.showns[len(lines) - 1] if lines else 0, status == 0, given)
        return case

    words = ["apply", killer.path("log"), killer.path("home"), refuser.path("script", text), *["--stay"] * stay]
    refuser.each(name, words, judge, lambda: killer.format(apply))


def judge_files(refuser, name, words, files, may_leave=None):
    """A command on files that hold these bytes. Refused, it leaves one of those that it may, if these are named; made again, it does all."""
    paths = {file: refuser.folder / file for file in files}

    def before():
        for file, path in paths.items():
            path.unlink(missing_ok=True)
            if files[file] is not None:
                path.write_bytes(files[file])

    held = lambda: {file: path.read_bytes() if path.exists() else None for file, path in paths.items()}
    before()
    whole = refuser.jbench(words)
    behind = held()
    if whole[0] != 0:
        differ(whole)

    def judge(status, output, messages):
        if (status, output, messages) == whole:
            if held() != behind:
                differ("other bytes than with ample memory")
            return "as with ample memory"
        if status != 1 or not whole[1].startswith(output) or not messages.startswith("jbench: "):
            differ((status, output, messages), whole)
        if may_leave and held() not in may_leave:
            differ("other bytes than before")
        again = refuser.jbench(words)
        if words[0] == "format" and again[2] == f"jbench: overwrites {words[1]}: it held no log\n":  # the refused one left zeros
            again = (*again[:2], "")
        if again != whole or held() != behind:
            differ(("made again", again), whole)
        return f"refused {messages.removeprefix('jbench: ').splitlines()[0].removeprefix('refusal ')}"

    refuser.each(name, words, judge, before)


def image_of(refuser, operations):
    """The files that a run leaves which stops at its end, with no write kept that was not flushed."""
    paths = [refuser.folder / "image_log", refuser.folder / "image_home"]
    words = ["--image-log", paths[0], "--image-home", paths[1]]
    done = refuser.jbench(["run", refuser.path("script", json.dumps({"ops": operations})), *words])
    if done[0] != 0:
        differ(done)
    return {"log": paths[0].read_bytes(), "home": paths[1].read_bytes()}


def judge_commands(refuser):
    log, home = refuser.folder / "log", refuser.folder / "home"
    none = {"log": None, "home": None}
    judge_files(refuser, "format", ["format", log, home], none)
    for name in ("two_writes", "write_and_revoke", "full_ring"):
        image = image_of(refuser, ROWS[name])
        judge_files(refuser, f"recover {name}", ["recover", log, home], image, [image])
        judge_files(refuser, f"dump {name}", ["dump", log], image, [image])
    judge_files(refuser, "recover --dry-run", ["recover", log, home, "--dry-run"], image, [image])
    judge_files(refuser, "show", ["show", log], image, [image])
    clean = image_of(refuser, [])
    judge_files(refuser, "recover a clean log", ["recover", log, home], clean, [clean])
    judge_files(refuser, "upgrade", ["upgrade", log], clean, [clean])
    script = refuser.path("checked", json.dumps({"ops": ROWS["further_handles"]}))
    judge_files(refuser, "check", ["check", script], {})
    judge_files(refuser, "check of clients", ["check", TOP / "examples" / "two_clients.json"], {})
    judge_files(refuser, "completions", ["completions", "bash"], {})
    judge_files(refuser, "man", ["man"], {})
    for name, operations in ROWS.items():
        lines = Run(json.dumps({"ops": operations})).lines  # an apply ends at the first operation that is refused: these are left out
        accepted = [operation for operation, line in zip(operations, lines) if " = refused " not in line]
        judge_apply(refuser, f"apply {name}", json.dumps({"ops": accepted}), name == "direct_write")


def random_script(draw):
    """A random script of few operations, over a small log with numbers of 32 bits."""
    while True:
        script = json.loads(RandomScript(draw, length=draw.choice((17, 20, 33))).text())
        if script.get("home", 64) <= 1000:
            return {**script, "ops": script["ops"][: draw.randrange(1, 40)]}


def main(words):
    program, words = program_of(words)
    tests, words = tests_of(words)
    count, seed = count_and_seed(words, 0)
    with tempfile.TemporaryDirectory() as folder:
        refuser = Refuser(program, Path(folder))
        missing = set(REFUSABLE) - set().union(*(judge_row(refuser, name, operations) for name, operations in ROWS.items()))
        if missing:
            refuser.note(False)
            print(f"never refused: {missing}")
        judge_commands(refuser)
        judge_seals(refuser)
        judge_threads(refuser, TOP / "examples" / "two_clients.json")
        for path, judge in tests.items():
            judge(refuser, path)
        draw = random.Random(seed)
        for number in range(count):
            script = Script([], False)
            script.text = json.dumps(random_script(draw))
            judge_runs(refuser, f"run of random script {number + 1}", script)
    print(f"requests={refuser.done['requests']}")
    print(f"{refuser.done['passed']} passed, {refuser.done['failed']} failed")
    return 1 if refuser.done["failed"] else 0


if __name__ == "__main__":
    sys.exit(main(sys.argv[1:]))
