#!/usr/bin/env -S python3 -B
"""How many requests for memory each call of a journal over files makes, and which of them come after its first write to the device.

usage: memory_requests.py [--program PATH]

`jbench apply` does scripts over two files, under a wrapper of the C library's malloc, realloc, pwrite and fdatasync
(refused_memory.c). What it writes down between two lines that the program prints is what one operation came to. What the program takes
itself is not counted: the block that it makes of the bytes of a `write`, a `read` or a `direct`, its table of handles, and after the
close the block from which it tells the next number. A request in a call that takes none for the journal is the device's, for a buffer
that it can do without: each of these is refused, in an apply of its own, and has to change no line and no byte of either file.

It prints a table: the call, its requests the first time, the least and the most that any later one made, and how many of all these come
after the first write of their call; and then what the seals of one copy and of six make, each in a journal that was just made, what
the first step of each of a journal's first three transactions makes, what the steps of a transaction of fifty entries make beside their
bytes, what a write of a block makes that its transaction has already, what closes make that first have to finish a commit, or to make room
too, and what came of the device's requests. The program is `./jbench`,
which is built first, or the one at PATH. Run it by hand; it needs what `refused_memory.py` does.
"""
import json
import sys
import tempfile
from pathlib import Path

from refused_memory import Refuser, program_of

LENGTH = 257  # blocks of the log
FIRST = ["turn"]  # the first operation, which does nothing: what comes before its line is the journal's making
# Of these lines the program has requests of its own: how many before the journal's, and how many after them.
OWN = {"new": (1, 0), "write": (1, 0), "read": (1, 0), "direct": (1, 0), "close": (0, 2)}
NONE_TAKEN = ("extend", "stop", "request", "wait", "direct", "sync", "ckturn", "turn step", "turn committed", "turn idle")


def transaction(name, count, kind="write"):
    touches = [[kind, name, 10 + i, "11"][: 4 if kind == "write" else 3] for i in range(count)]
    return [["start", name, count], *touches, ["stop", name], ["request", name]]


def seal_of(count, kind="write"):
    return [FIRST, *transaction(1, count, kind), ["turn"]]


def first_steps(kind):
    """Three transactions, each of one step and committed."""
    return [FIRST, *(operation for i in range(3) for operation in [*transaction(i, 1, kind), *[["turn"]] * 8])]


# Of each kind of call some: 12 transactions of one to six entries, with reads, revokes, direct writes and rounds between them.
EACH_CALL = [
    FIRST, *(operation for i in range(12) for operation in [
        ["start", i, 6], *(["write", i, 10 + (7 * i + j) % 20, "22"] for j in range(i % 6 + 1)), *(["write", i, 10 + 7 * i % 20, "33"],) * 9,
        ["read", i, 10 + 7 * i % 20], ["read", i, 50], ["extend", i, 0], ["restart", i, 1], ["revoke", i, 30 + i],
        ["revoke", i, 30 + i], ["stop", i], ["request", i], *[["turn"]] * 16, ["wait", i], ["direct", 40 + i, "44"], ["sync"],
        *[["ckturn"]] * (12 if i % 3 == 2 else 0)]),
    *transaction(20, 3)]


# Closes that first have to finish a commit; of the second one the ring has no room for the running transaction before a round.
CLOSES = {
    "after a commit": [FIRST, *transaction(1, 3), *[["turn"]] * 4, *transaction(2, 3)],
    "after a commit and a round": [
        FIRST, *(operation for i in range(3) for operation in [*transaction(i, 50), *[["turn"]] * 58]),
        *transaction(4, 50), *[["turn"]] * 9, *transaction(5, 50)],
}


class Applied:
    """What an apply of operations to new files came to: what was asked for and written between its lines."""

    def __init__(self, refuser, operations, refused=0):
        self.operations = operations
        paths = [refuser.folder / name for name in ("log", "home")]
        for path in paths:
            path.unlink(missing_ok=True)
        done = refuser.jbench(["format", *paths, "--length", LENGTH])
        assert done[0] == 0, done
        script = refuser.path("script", json.dumps({"ops": operations}))
        self.done = refuser.jbench(["apply", *paths, script], refused)
        self.files = [path.read_bytes() for path in paths]
        self.parts = [[]]  # of what comes before each line
        for number, line in enumerate(refuser.calls.read_text().splitlines()):
            kind, _, size = line.partition(" ")
            if kind == "print":
                self.parts.append([])
            elif kind in ("request", "write", "sync"):
                self.parts[-1].append((kind, int(size or 0)))

    def by_call(self):
        """Of each line: the word of its call, the numbers and the sizes of its requests, and how many come after its first write."""
        lines = self.done[1].splitlines()
        assert self.done[0] == 0 and len(lines) == len(self.operations) + 2 and len(self.parts) >= len(lines), self.done
        words = ["opening", "new", *(name_of(operation, line) for operation, line in zip(self.operations[1:], lines[2:])), "close"]
        number = 0
        for word, part in zip(words, self.parts):
            made, has_written = [], False
            for kind, size in part:
                if kind == "request":
                    number += 1
                    made.append((number, size, has_written))
                has_written = has_written or kind != "request"
            before, behind = OWN.get(word.split()[0], (0, 0))
            made = made[before : len(made) - behind]
            if word != "opening":
                yield word, [each[0] for each in made], [each[1] for each in made], sum(each[2] for each in made)


def name_of(operation, line):
    """The word of a call, with what makes its requests others."""
    name = operation[0]
    answer = line.partition(" = ")[2]
    assert "refused" not in answer, line
    if name in ("turn", "ckturn"):
        return f"{name} {answer.split()[0]}"
    return name


def table(applied):
    calls = {}
    for word, _, sizes, behind in applied.by_call():
        calls.setdefault(word, []).append((len(sizes), behind))
    print("| Call | Requests the first time | later | after its first write |")
    print("|---|---|---|---|")
    for word, made in calls.items():
        later = [count for count, _ in made[1:]]
        told = f"{min(later)} to {max(later)}" if later and min(later) < max(later) else str(later[0]) if later else ""
        print(f"| `{word}` | {made[0][0]} | {told} | {sum(behind for _, behind in made)} |")


def same(refuser, applied, numbers):
    """How many of these requests change no line and no byte where they are refused, each in an apply of its own."""
    return sum((other.done, other.files) == (applied.done, applied.files) for other in (Applied(refuser, applied.operations, number) for number in numbers))


def main(words):
    program, _ = program_of(words)
    with tempfile.TemporaryDirectory() as folder:
        refuser = Refuser(program, Path(folder))
        applied = Applied(refuser, EACH_CALL)
        table(applied)
        for kind in ("write", "revoke"):
            for count in (1, 6):
                *_, (word, _, sizes, _), _ = Applied(refuser, seal_of(count, kind)).by_call()
                print(f"{word} of {count} by {kind}: {len(sizes)} requests, of {sizes} bytes")
        for kind, own in (("write", 2), ("revoke", 0)):
            made = [sizes for word, _, sizes, _ in Applied(refuser, first_steps(kind)).by_call() if word == kind]
            print(f"first {kind} of each of three transactions: requests {[len(sizes) for sizes in made]}, the last of {made[-1]} bytes")
            made = [len(sizes) for word, _, sizes, _ in Applied(refuser, seal_of(50, kind)).by_call() if word == kind]
            grown = {place: count - own for place, count in enumerate(made, 1) if count > own}
            print(f"{kind} of 50 blocks: {own} requests, and so many more by the place of the step: {grown}")
        known = [FIRST, ["start", 1, 1], *[["write", 1, 9, "11"]] * 40]
        made = [sizes for word, _, sizes, _ in Applied(refuser, known).by_call() if word == "write"]
        print(f"write of a block that is known: requests {[len(sizes) for sizes in made[1:]]}")
        for name, operations in CLOSES.items():
            closed = Applied(refuser, operations)
            *_, (_, numbers, _, behind) = closed.by_call()
            late = numbers[len(numbers) - behind :]
            told = f"of which {same(refuser, closed, late)} change nothing where they are refused"
            print(f"close {name}: {len(numbers)} requests, {behind} behind its first write, {told}")
        numbers = [number for word, numbers, _, _ in applied.by_call() for number in numbers if word.startswith(NONE_TAKEN)]
        told = f"of which {same(refuser, applied, numbers)} change nothing where they are refused"
        print(f"requests in calls that take none for the journal: {len(numbers)}, {told}")
    return 0


if __name__ == "__main__":
    sys.exit(main(sys.argv[1:]))
