#!/usr/bin/env -S python3 -B
"""Says what rows of runs want, by the model of whole runs (run_model.py), which shares nothing with the journal.

usage: run_rows.py FILE.rows ..             how many rows of each file want what the model says; each other row with both texts
       run_rows.py --wanted NAME FILE.rows  what the model says of the row of this name

Each file has rows of the kind stops, stops_of_openings, failures, sweeps, failure_sweeps or bytes (folder data of the crate journal_rows). The last row
of a file is wrong on purpose, so it has to be among those that are printed. Wanted texts of long rows come from here.
"""
import sys
from itertools import takewhile

from openings import rows_of, tell_rows
from run_model import Outcome, Run, options_of, outcome_of


class Endings:
    """In which ways runs end, in the order in which these come, and for each the stops after which runs end so, as series.

    Of runs that end elsewhere `places` is the word for where they do.
    """

    def __init__(self, places="stops"):
        self.places, self.stops, self.of_end = places, {}, set()

    def note(self, text, stop):
        series = self.stops.setdefault(text, [])
        if stop is None:
            self.of_end.add(text)
        elif series and series[-1][1] in (stop - 1, stop):
            series[-1][1] = stop
        else:
            series.append([stop, stop])

    def text(self):
        told = []
        for text, series in self.stops.items():
            stops = "".join(f" {first} to {last}" for first, last in series)
            told.append(f"{text}: {self.places}{stops}" + " and the end" * (text in self.of_end))
        return "\n".join(told)


def given_of(given):
    """The three numbers of a line as `stops 1 to 13, any of the last 4 writes kept`, and the script after it."""
    line, _, text = given.partition("\n")
    return [int(word) for word in line.replace(",", "").split() if word.isdigit()], text


def kept_of(stop, back):
    """Each choice of so many last writes up to this one, by its bits."""
    return ([max(stop - i, 0) for i in range(back) if bits >> i & 1] for bits in range(2**back))


def right(lines):
    return "true" if lines[-1] == "verdict ok" else "false"


def tell_stops(given):
    (first, last, back), text = given_of(given)
    endings = Endings()
    for stop in range(first, last + 1):
        run = Run(text, stop)
        for kept in kept_of(stop, back):
            lines = Outcome(run, kept).lines
            _, _, ending = ", ".join(lines).partition(" n=")
            endings.note(f"n={ending}, right {right(lines)}", stop if run.device.is_stopped else None)
    return endings.text()


def tell_stops_of_openings(given):
    (first, last, back), text = given_of(given)
    endings, run = Endings(), Run(text)
    for stop in range(first, last + 1):
        for kept in kept_of(stop, back):
            lines = Outcome(run, (), stop, kept).lines
            ending = list(takewhile(lambda line: not line.startswith(("open ", "reopen ")), reversed(lines)))
            found = lines[-len(ending) - 1]
            endings.note(", ".join([found, *reversed(ending), f"right {right(lines)}"]), stop)
    return endings.text()


def tell_failures(given):
    """Given: a line as `calls 1 to 10, any of the last 4 writes kept`, and a script."""
    (first, last, back), text = given_of(given)
    endings, calls = Endings("calls"), Run(text).device.calls
    for call in range(first, last + 1):
        run = Run(text, fail=call)
        for kept in kept_of(run.device.writes, back):
            lines = Outcome(run, kept).lines
            _, _, ending = ", ".join(lines).partition(" n=")
            endings.note(f"n={ending}, right {right(lines)}", call if call <= calls else None)
    return endings.text()


def tell_sweep(text):
    writes = Run(text).device.writes
    images = again = wrong = 0
    for stop in range(1, writes + 1):
        run = Run(text, stop)
        for kept in kept_of(stop, min(stop, 4)):
            outcome = Outcome(run, kept)
            images += 1
            wrong += outcome.lines[-1] != "verdict ok"
            for stop2 in range(1, outcome.writes + 1):
                for kept2 in kept_of(stop2, min(stop2, 4)):
                    again += 1
                    wrong += Outcome(run, kept, stop2, kept2).lines[-1] != "verdict ok"
    return f"writes={writes} images={images} again={again} false={wrong}"


def tell_failure_sweep(text):
    calls, wrong = Run(text).device.calls, 0
    for call in range(1, calls + 1):
        run = Run(text, fail=call)
        for kept in kept_of(run.device.writes, min(run.device.writes, 4)):
            wrong += Outcome(run, kept).lines[-1] != "verdict ok"
    return f"calls={calls} false={wrong}"


def tell_bytes(given):
    """Given: a script on a line, and lines as `log 3` or `log 3 from 8 for 4`, the last of them perhaps after a line `opened`."""
    text, _, lines = given.partition("\n")
    left, opened, behind = lines.partition("opened\n")
    run = Run(text)
    device = run.device.image(run.device.unflushed_numbers())
    told = [named_bytes(device, line) for line in left.splitlines()]
    if opened:
        home = Outcome(run, ()).left
        told += ["opened", *(named_bytes(home, line) for line in behind.splitlines())]
    return "\n".join(told)


def named_bytes(device, line):
    area, place, *part = line.split()
    begin, count = (int(part[1]), int(part[3])) if part else (0, device.size)
    found = device.read(area, int(place))[begin : begin + count]
    used = found.rstrip(b"\0")
    zeros = len(found) - len(used)
    spelled = found.hex() if zeros <= 8 else " and ".join([used.hex()] * bool(used) + [f"{zeros} zeros"])
    return f"{line}: {spelled}"


TELL = {
    "stops": tell_stops,
    "stops_of_openings": tell_stops_of_openings,
    "failures": tell_failures,
    "sweeps": tell_sweep,
    "failure_sweeps": tell_failure_sweep,
    "bytes": tell_bytes,
}


def main():
    if sys.argv[1:2] == ["--wanted"]:
        _, _, name, path = sys.argv
        with open(path) as file:
            kind, rows = rows_of(file.read())
        print(*(TELL[kind](given) for row, given, _ in rows if row == name), sep="\n")
        return
    tell_rows(sys.argv[1:], TELL)


if __name__ == "__main__":
    main()
