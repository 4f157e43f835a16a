#!/usr/bin/env python3
"""Says what openings of logs answer, by the rules of the format alone: a model that shares nothing with the journal.

usage: openings.py FILE.rows ..
       openings.py --rows KIND SEED COUNT [wide]     a file of rows of this kind, one for each of so many random logs

Each file has rows of the kind openings, second_openings, opening_calls, upgrades, changed_bytes or random_logs
(folder data of the crate journal_rows). For each file a line tells how many of its rows want what the model says, and each other row is printed
with both texts. The last row of a file is wrong on purpose, so it has to be among those that are printed. Wanted texts of rows
with many images come from here. With --rows, KIND is openings, second_openings, opening_calls or upgrades; all rows of such a file are to
hold.

The rules are those of docs/FORMAT.md: bytes, the tests of an opening and their order, reading a log, replay, and device calls.
"""
import hashlib
import re
import sys

MAGIC = 0xC03B3998
DESCRIPTOR, COMMIT, SUPERBLOCK, REVOKE = 1, 2, 4, 5
GREATEST = 0xFFFFFFF0
NARROW, WIDE = 1, 3  # s_feature_incompat of a log whose block numbers have 32 bits, and of one where they have 64
UUID = b"\xaa" * 16


# ---- an opening


def word(block, at):
    return int.from_bytes(block[at : at + 4], "big")


def has_magic(block):
    return word(block, 0) == MAGIC


def is_wide(superblock):
    return word(superblock, 0x28) == WIDE


def refused_superblock(block, area):
    """The refusal of the first test that fails, or None."""
    if word(block, 0) != MAGIC:
        return "13 BadMagic"
    if word(block, 4) != SUPERBLOCK:
        return "14 BadType"
    if word(block, 0x0C) not in (1024, 2048, 4096) or word(block, 0x0C) != len(block):
        return "15 BadBlockSize"
    maxlen, first, start = word(block, 0x10), word(block, 0x14), word(block, 0x1C)
    if not 17 <= maxlen <= 1048576 or maxlen > area:
        return "16 BadLength"
    if first == 0 or maxlen - first < 16:
        return "17 BadFirst"
    if word(block, 0x24) != 0 or word(block, 0x2C) != 0 or word(block, 0x28) not in (NARROW, WIDE) or word(block, 0x40) != 1:
        return "18 BadFeature"
    if start != 0 and not first <= start < maxlen:
        return "19 BadStart"
    if word(block, 0x20) != 0:
        return "20 ErrnoSet"
    return None


def tags_of(block, home_blocks, wide):
    """The tags of a descriptor as pairs of a home block and whether its copy is escaped, or None where it is malformed."""
    tags, at, size = [], 12, 12 if wide else 8
    while at + size <= len(block):
        number, flags = word(block, at), word(block, at + 4) & 0xFFFF
        if wide:
            number += word(block, at + 8) << 32
        if flags & ~(1 | 2 | 8) or number >= home_blocks:
            return None
        tags.append((number, bool(flags & 1)))
        if flags & 8:
            return tags
        at += size if flags & 2 else size + 16
        if at > len(block):
            return None
    return None


def numbers_of(block, home_blocks, wide):
    """The numbers of a revoke block, or None where it is malformed."""
    used, size = word(block, 12), 8 if wide else 4
    if used < 16 or used > len(block) or (used - 16) % size:
        return None
    numbers = [int.from_bytes(block[at : at + size], "big") for at in range(16, used, size)]
    return numbers if all(number < home_blocks for number in numbers) else None


class Refused(Exception):
    pass


def scan(log, home_blocks):
    """The number after the complete transactions, their copies as (transaction, home block, bytes), and their revokes."""
    maxlen, first, start = (word(log[0], at) for at in (0x10, 0x14, 0x1C))
    ring = maxlen - first
    place = lambda taken: first + (start - first + taken) % ring
    due, taken, wide = word(log[0], 0x18), 0, is_wide(log[0])
    copies, revokes, of_due = [], [], ([], [])
    while taken < ring:
        block = log[place(taken)]
        if not has_magic(block) or word(block, 8) != due:
            break
        kind = word(block, 4)
        if kind == COMMIT:
            copies, revokes = copies + of_due[0], revokes + of_due[1]
            due, taken, of_due = due + 1, taken + 1, ([], [])
        elif kind == REVOKE:
            numbers = numbers_of(block, home_blocks, wide)
            if numbers is None:
                raise Refused(f"22 Damage {place(taken)}")
            of_due[1].extend((due, number) for number in numbers)
            taken += 1
        elif kind == DESCRIPTOR:
            tags = tags_of(block, home_blocks, wide)
            if tags is None:
                raise Refused(f"22 Damage {place(taken)}")
            if taken + 1 + len(tags) > ring:
                break
            for i, (number, escaped) in enumerate(tags):
                stored = log[place(taken + 1 + i)]
                copy = MAGIC.to_bytes(4, "big") + stored[4:] if escaped else stored
                of_due[0].append((due, number, copy))
            taken += 1 + len(tags)
        else:
            break
    return due, copies, revokes


def opening(log, home_blocks):
    """What an opening of these blocks answers, the blocks that it writes home, how many writes it makes, and block 0 after it."""
    if not log:
        return "refusal 16 BadLength", {}, 0, None
    refusal = refused_superblock(log[0], len(log))
    if refusal:
        return f"refusal {refusal}", {}, 0, log[0]
    maxlen, first, begin, start = (word(log[0], at) for at in (0x10, 0x14, 0x18, 0x1C))
    try:
        end, copies, revokes = scan(log, home_blocks) if start else (begin, [], [])
        for p in range(first, maxlen):
            if has_magic(log[p]) and word(log[p], 8) > end:
                raise Refused(f"21 Ahead {p}")
        if end + 1 > GREATEST:
            raise Refused("10 SequenceEnd")
    except Refused as refused:
        return f"refusal {refused}", {}, 0, log[0]
    if not start:
        return f"clean next={end + 1}", {}, 0, log[0]
    covered = {number: tid for tid, number in revokes}  # by home block: the greatest transaction that revokes it
    home = {}  # in the order in which the newest copies stand in the chain
    for tid, number, copy in copies:
        if tid > covered.get(number, -1):
            home.pop(number, None)
            home[number] = copy
    left = log[0][:0x18] + (end + 1).to_bytes(4, "big") + bytes(4) + log[0][0x20:]
    line = f"recovered end={end} next={end + 1} transactions={end - begin}"
    return line, home, len(home) + 1, left


# ---- an upgrade


def upgrade(log):
    """What an upgrade of these blocks answers, and block 0 after it, where it is written."""
    if not log:
        return "refusal 16 BadLength", None
    refusal = refused_superblock(log[0], len(log))
    if refusal is None and is_wide(log[0]):
        refusal = "23 AlreadyWide"
    if refusal is None and word(log[0], 0x1C) != 0:
        refusal = "24 NotEmpty"
    if refusal:
        return f"refusal {refusal}", None
    return f"upgraded sequence={word(log[0], 0x18)}", log[0][:0x28] + WIDE.to_bytes(4, "big") + log[0][0x2C:]


# ---- what rows tell of it


def home_lines(home):
    told = []
    for number, copy in sorted(home.items()):
        if any(copy):
            told.append(f"home {number} {copy.rstrip(bytes(1)).hex()}")
    return told


def tell_opening(log, home_blocks):
    line, home, writes, _ = opening(log, home_blocks)
    return "\n".join([line] + home_lines(home) + [f"writes {writes}"])


def tell_second_opening(log, home_blocks):
    line, home, _, left = opening(log, home_blocks)
    again, more, writes, _ = opening([left] + log[1:], home_blocks)
    return "\n".join([line, again] + home_lines({**home, **more}) + [f"writes {writes}"])


def tell_opening_calls(log, home_blocks):
    line, home, _, _ = opening(log, home_blocks)
    if line.startswith("refusal"):
        return ""
    writes = [f"write home {number}" for number in home]
    return "\n".join(["flush log"] + ([] if line.startswith("clean") else writes + ["flush home", "write log 0", "flush log"]))


def tell_upgrades(log, home_blocks):
    line, written = upgrade(log)
    told = [line]
    if written:
        told += ["flush log", "write log 0", "flush log"]
        told += [f"block 0 byte {at}: {old:02x} to {new:02x}" for at, (old, new) in enumerate(zip(log[0], written)) if old != new]
        log = [written] + log[1:]
    return "\n".join(told + [opening(log, home_blocks)[0]])


def name_of(line):
    words = line.split()
    return " ".join(words[:3] if words[0] == "refusal" else words[:1])


class Tally:
    """How many images had each answer, in the order in which these came; and a digest of the whole results."""

    def __init__(self):
        self.answers, self.writes, self.results = {}, 0, hashlib.sha256()

    def add(self, log, home_blocks, name_of):
        line, home, writes, left = opening(log, home_blocks)
        again, more, writes_again, _ = opening([left] + log[1:], home_blocks)
        told = [f"{line}, writes {writes}", f"{again}, writes {writes_again}"] + home_lines({**home, **more})
        self.results.update("".join(each + "\n" for each in told).encode())
        self.answers[name_of(line)] = self.answers.get(name_of(line), 0) + 1
        self.writes += writes

    def text(self):
        lines = [f"{sum(self.answers.values())} images, writes {self.writes}"]
        lines += [f"{count} {name}" for name, count in self.answers.items()]
        return "\n".join(lines + [f"sha256 {self.results.hexdigest()}"])


def series(text):
    first, _, last = text.partition("..")
    return range(int(first), int(last or first) + 1)


def tell_changed_bytes(given):
    """Given: as `blocks=0..32 bytes=0..63 values=00ff`, and a log."""
    head, _, spelled = given.partition("\n")
    values = dict(pair.split("=") for pair in head.split())
    log, home_blocks = log_of(spelled)
    tally = Tally()
    for block in series(values["blocks"]):
        for byte in series(values["bytes"]):
            for value in bytes.fromhex(values["values"]):
                changed = log[block][:byte] + bytes([value]) + log[block][byte + 1 :]
                tally.add(log[:block] + [changed] + log[block + 1 :], home_blocks, str)
    return tally.text()


# ---- the spelling of logs (docs of log_rows::spelling and log_rows::logs)


def number(text):
    return int(text, 0) if text.startswith("0x") else int(text)


FIELDS = {
    "s_blocksize": 0x0C, "s_maxlen": 0x10, "s_first": 0x14, "s_sequence": 0x18, "s_start": 0x1C, "s_errno": 0x20,
    "s_feature_compat": 0x24, "s_feature_incompat": 0x28, "s_feature_ro_compat": 0x2C, "s_nr_users": 0x40,
}
HEADERS = {"descriptor": DESCRIPTOR, "commit": COMMIT, "revoke": REVOKE}


def words_of(numbers):
    return b"".join(n.to_bytes(4, "big") for n in numbers)


def spelled_word(block, text, size, area, wide):
    """The bytes of a block with one more word."""
    times, star, behind = text.partition("*")
    if star:
        for _ in range(int(times)):
            block = spelled_word(block, behind, size, area, wide)
        return block
    name, equals, value = text.partition("=")
    if equals and name in HEADERS:
        return block + words_of([MAGIC, HEADERS[name], number(value)])
    if equals and name == "used":
        return block + words_of([number(value)])
    if equals and name == "bytes":
        return block + bytes.fromhex(value)
    if equals and name[0] == "@":
        return put(block, number(name[1:]), bytes.fromhex(value))
    if equals:
        return put(block, FIELDS[name], words_of([number(value)]))
    blocks, slash, flags = text.partition("/")
    if slash:
        return block + b"".join(tag_of(n, int(flags, 16), wide) for n in numbers_in(blocks))
    if text == "magic":
        return block + words_of([MAGIC])
    if text == "uuid":
        return block + UUID
    if text == "super":
        features = WIDE if wide else NARROW
        return block + words_of([MAGIC, 4, 0, size, area, 1, 1, 0, 0, 0, features, 0]) + UUID + words_of([1])
    return block + b"".join(n.to_bytes(8 if wide else 4, "big") for n in numbers_in(text))


def tag_of(number, flags, wide):
    """A tag without the UUID after it. In a wide log the higher half of the number stands after the flags."""
    return words_of([number % 2**32, flags, number >> 32]) if wide else words_of([number, flags])


def numbers_in(text):
    first, _, last = text.partition("..")
    return range(number(first), number(last or first) + 1)


def put(block, at, more):
    block = block.ljust(at + len(more), b"\0")
    return block[:at] + more + block[at + len(more) :]


def block_of(text, size, area, wide):
    words, rest = text.split(), 0
    if words and words[-1].startswith(".."):
        rest = int(words.pop()[2:], 16)
    block = b""
    for each in words:
        block = spelled_word(block, each, size, area, wide)
    assert len(block) <= size, text
    return block.ljust(size, bytes([rest]))


def log_of(text):
    """The blocks of the log's area that a text spells, and how many blocks home has."""
    area, home_blocks, size, wide, lines = 33, 64, 1024, False, text.splitlines()
    if lines and lines[0].startswith("device "):
        words = lines.pop(0).split()[1:]
        wide = "wide" in words
        shape = dict(pair.split("=") for pair in words if pair != "wide")
        area, home_blocks, size = (int(shape.get(name, usual)) for name, usual in
                                   (("log", area), ("home", home_blocks), ("block", size)))
    log = [bytes(size)] * area
    for line in lines:
        first, _, spelled = line.partition(":")
        for i, words in enumerate(spelled.split("|")):
            log[number(first) + i] = block_of(words, size, area, wide)
    return log, home_blocks


# ---- random logs, drawn in the same order as by log_rows::openings::random_logs


class Draws:
    """SplitMix64."""

    def __init__(self, seed):
        self.state = seed

    def below(self, n):
        self.state = (self.state + 0x9E3779B97F4A7C15) % 2**64
        z = self.state
        z = (z ^ z >> 30) * 0xBF58476D1CE4E5B9 % 2**64
        z = (z ^ z >> 27) * 0x94D049BB133111EB % 2**64
        return (z ^ z >> 31) % n


class RandomLog:
    def __init__(self, draws, wide=False):
        self.draws, self.wide = draws, wide
        self.maxlen = 17 + draws.below(17)
        self.first = 1 + draws.below(self.maxlen - 16)
        self.area = self.maxlen + draws.below(2)
        self.home = 4 + draws.below(12)
        self.start = self.first + draws.below(self.maxlen - self.first)
        self.sequence = self.draw_sequence()
        self.used = 0
        self.blocks = [self.draw_old_block(place) for place in range(self.area)]
        is_clean = draws.below(8) == 0
        for i in range(0 if is_clean else draws.below(8)):
            self.draw_transaction(self.number(i))
        self.draw_damage()
        self.draw_superblock(is_clean)

    def draw_sequence(self):
        case = self.draws.below(16)
        if case == 0:
            return 0xFFFFFFFC + self.draws.below(4)
        if case == 1:
            return 0xFFFFFFE8 + self.draws.below(8)
        return self.draws.below(100)

    def number(self, more):
        return (self.sequence + more) % 2**32

    def place(self, position):
        """The place in the area of a position, which counts blocks of the ring from where the log begins."""
        ring = self.maxlen - self.first
        return self.first + (self.start - self.first + position) % ring

    def draw_old_block(self, place):
        """What stands in the area before the log is written. After the ring, and before it, no number is looked at."""
        case = self.draws.below(6)
        if case == 0:
            return self.draw_copy()
        if case > 1:
            return ""
        if place < self.first or place >= self.maxlen:
            return "commit=0xffffffff"
        return f"commit={max(self.sequence - self.draws.below(4), 0)}"

    def draw_copy(self):
        case = self.draws.below(40)
        if case == 0:
            return f"commit={self.number(self.draws.below(3))}"
        if case < 4:
            return ""
        if case < 8:
            return f"bytes=00000000{self.draws.below(256):02x}"
        front = self.draws.below(65536)
        place = 1023 if self.draws.below(8) == 0 else 2 + self.draws.below(14)
        return f"bytes={front:04x} @{place}={self.draws.below(256):02x}"

    def add(self, words):
        """Writes the next block of the log, where the ring has room."""
        if self.used < self.maxlen - self.first:
            self.blocks[self.place(self.used)] = words
            self.used += 1

    def draw_home_block(self):
        block = self.draws.below(self.home)
        return block + self.home if self.draws.below(64) == 0 else block

    def draw_transaction(self, tid):
        for _ in range(self.draws.below(4)):
            if self.draws.below(3) == 0:
                self.draw_revokes(tid)
            else:
                self.draw_copies(tid)
        if self.draws.below(16) != 0:
            self.add(f"commit={tid}")

    def draw_revokes(self, tid):
        count = self.draws.below(4)
        words = f"revoke={tid} used={16 + (8 if self.wide else 4) * count}"
        for _ in range(count):
            words += f" {self.draw_home_block()}"
        self.add(words)

    def draw_copies(self, tid):
        count = 1 + self.draws.below(3)
        words = f"descriptor={tid}"
        for i in range(count):
            words += " " + self.draw_tag(i + 1 == count)
        self.add(words)
        for _ in range(count):
            self.add(self.draw_copy())

    def draw_tag(self, is_last):
        block = self.draw_home_block()
        flags = (1 if self.draws.below(4) == 0 else 0) + (8 if is_last else 0)
        if self.draws.below(2) == 0:
            return f"{block}/{flags:04x} uuid"
        return f"{block}/{flags + 2:04x}"

    def draw_damage(self):
        """Changes bytes of the log in every second image, and in every eighth puts a block with a number near the log's."""
        for _ in range(max(self.draws.below(4) - 1, 0)):
            place = self.place(self.draws.below(self.used + 2))
            self.blocks[place] += f" @{self.draws.below(32)}={self.draw_byte():02x}"
        if self.draws.below(8) == 0:
            place = self.place(self.draws.below(self.maxlen))
            self.blocks[place] = f"commit={self.number(self.draws.below(12))}"

    def draw_byte(self):
        case = self.draws.below(4)
        if case < 2:
            return 0xFF * case
        return 1 << self.draws.below(8) if case == 2 else self.draws.below(256)

    def draw_superblock(self, is_clean):
        words = f"super s_maxlen={self.maxlen} s_first={self.first} s_sequence={self.sequence}"
        words += f" s_start={0 if is_clean else self.start}"
        if self.draws.below(8) == 0:
            words += " " + self.draw_wrong_field()
        self.blocks[0] = words

    def draw_wrong_field(self):
        return ["@0=00", "@4=00000003", "s_blocksize=2048", f"s_maxlen={self.area + 1}", "s_first=0", "s_feature_incompat=2",
                "s_nr_users=2", f"s_start={self.maxlen}", "s_errno=5"][self.draws.below(9)]

    def text(self):
        lines = [f"device log={self.area} home={self.home}" + " wide" * self.wide]
        return "\n".join(lines + [f"{place}: {words}" for place, words in enumerate(self.blocks) if words])


def tell_random_logs(given):
    """Given: `seed=N images=N`, and after it `wide` for logs whose block numbers have 64 bits."""
    words = given.split()
    values = dict(pair.split("=") for pair in words if pair != "wide")
    draws, tally = Draws(number(values["seed"])), Tally()
    for _ in range(int(values["images"])):
        tally.add(*log_of(RandomLog(draws, "wide" in words).text()), name_of)
    return tally.text()


# ---- files of rows


def written_out(text):
    """The text with its repetitions `<first last more|text>` written out."""

    def repeated(found):
        first, last, more = map(int, found[1].split())
        return "".join(found[2].replace("#", str(n)).replace("@", str(n + more)).replace("$", f"{n + more:02x}")
                       for n in range(first, last + 1))

    return re.sub(r"<(\d+ \d+ \d+)\|([^>]*)>", repeated, text)


def rows_of(text):
    """The kind of a file's rows, and the name, the given and the wanted text of each."""
    head, _, body = text.partition("\nrows ")
    assert all(line.startswith("#") for line in head.splitlines())
    kind, _, body = body.partition("\n")
    rows = []
    for part in ("\n" + body.strip()).split("\n== ")[1:]:
        name, _, texts = part.partition("\n")
        given, _, wanted = texts.partition("-->")
        rows.append((name, written_out(given.strip()), written_out(wanted.strip())))
    return kind.strip(), rows


TELL = {
    "openings": lambda given: tell_opening(*log_of(given)),
    "second_openings": lambda given: tell_second_opening(*log_of(given)),
    "opening_calls": lambda given: tell_opening_calls(*log_of(given)),
    "upgrades": lambda given: tell_upgrades(*log_of(given)),
    "changed_bytes": tell_changed_bytes,
    "random_logs": tell_random_logs,
}


def drawn_rows(kind, seed, count, wide):
    """A file with a row for each of so many random logs, as the program that reads rows takes it."""
    draws = Draws(seed)
    lines = [f"# Random logs of seed {seed}, and what the model says of them.", f"rows {kind}"]
    for i in range(count):
        given = RandomLog(draws, wide).text()
        lines += ["", f"== log {i}", given, "-->", TELL[kind](given)]
    return "\n".join(lines)


def main():
    if sys.argv[1:2] == ["--rows"]:
        kind, seed, count, *width = sys.argv[2:]
        print(drawn_rows(kind, int(seed), int(count), width == ["wide"]))
        return
    tell_rows(sys.argv[1:], TELL)


def tell_rows(paths, tell):
    """Prints how many rows of each file want what the model of their kind says, and each other row."""
    for path in paths:
        with open(path) as file:
            kind, rows = rows_of(file.read())
        others = [(name, wanted, said) for name, given, wanted in rows if (said := tell[kind](given)) != wanted]
        print(f"{path}: {len(rows) - len(others)} of {len(rows)} rows want what the model says")
        for name, wanted, said in others:
            print(f"  {name}\n    wanted:\n{indented(wanted)}\n    by the model:\n{indented(said)}")


def indented(text):
    return "\n".join("      " + line for line in text.splitlines())


if __name__ == "__main__":
    main()
