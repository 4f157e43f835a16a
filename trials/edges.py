#!/usr/bin/env -S python3 -B
"""`jbench` at paths that are neither regular files nor block devices, or the same one twice: two lines each, exit status 1, no wait, and nothing is left behind.

usage: edges.py [--program PATH]

The gate's own tests make folders, missing files and words that are no text; pipes, devices and sockets are made here, which those can't.
Each command gets each of them in the place of each of its files. Every call has to end within ten seconds, print just `jbench: file PATH`
and a line with the reason on standard error, and leave the other files as they were. The program is `./jbench`, which is built first, or the one at PATH. Run it by
hand.
"""
import os
import socket
import subprocess
import sys
import tempfile
from pathlib import Path

TOP = Path(__file__).resolve().parent.parent
SCRIPT = '{"block": 1024, "length": 33, "home": 64, "ops": [["start", 1, 1], ["write", 1, 9, "11"], ["stop", 1], ["commit"]]}'
COMMANDS = {  # the words of each, and which of them are files
    "run": ["SCRIPT"],
    "sweep": ["SCRIPT"],
    "check": ["SCRIPT"],
    "dump": ["LOG"],
    "upgrade": ["LOG"],
    "format": ["LOG", "HOME"],
    "recover": ["LOG", "HOME"],
    "apply": ["LOG", "HOME", "SCRIPT"],
    "bench": ["LOG", "HOME", "--transactions", "1"],
    "serve": ["LOG", "HOME"],
}


def make_odd(folder):
    """Paths that are there and are neither regular files nor block devices."""
    os.mkfifo(folder / "pipe")
    (folder / "folder").mkdir()
    socket.socket(socket.AF_UNIX).bind(str(folder / "socket"))
    os.symlink(folder / "pipe", folder / "link_to_pipe")
    return [folder / name for name in ("pipe", "folder", "socket", "link_to_pipe")] + [Path("/dev/null"), Path("/dev/zero")]


def call(program, words):
    done = subprocess.run([program, *map(str, words)], capture_output=True, timeout=10, stdin=subprocess.DEVNULL)
    return done.returncode, done.stdout.decode(), done.stderr.decode()


def first_line(found):
    """What a call came to, with the first of two lines on standard error, the second of which begins with two spaces."""
    if isinstance(found, str) or found[2].count("\n") != 2 or not found[2].split("\n")[1].startswith("  "):
        return found
    return found[0], found[1], found[2].split("\n")[0]


def main(words):
    program = Path(words[1]).resolve() if words[:1] == ["--program"] else TOP / "jbench"
    if words[:1] != ["--program"]:
        subprocess.run([program, "build"], check=True)
    calls = wrong = 0
    with tempfile.TemporaryDirectory() as name:
        folder = Path(name)
        odd = make_odd(folder)
        files = {word: folder / word.lower() for word in ("LOG", "HOME", "SCRIPT")}
        files["SCRIPT"].write_text(SCRIPT)
        assert call(program, ["format", files["LOG"], files["HOME"]])[0] == 0
        held = {word: path.read_bytes() for word, path in files.items()}
        names = sorted(os.listdir(folder))
        for command, shape in COMMANDS.items():
            places = [word for word in shape if word in files]
            # a script is read from a pipe too, and waits for whoever writes it
            cases = [(place, path) for place in places for path in odd if not (place == "SCRIPT" and path.is_fifo())]
            cases += [(place, files[other]) for place in places for other in places if place > other]  # one file named twice
            cases += [("HOME", folder / "no_folder" / "home")] if command == "format" else []
            for place, path in cases:
                given = [command, *(path if word == place else files.get(word, word) for word in shape)]
                try:
                    found = call(program, given)
                except subprocess.TimeoutExpired:
                    found = "no end within ten seconds"
                calls += 1
                wanted = (1, "", f"jbench: file {path}")
                same = {word: other.read_bytes() for word, other in files.items()} == held and sorted(os.listdir(folder)) == names
                if first_line(found) != wanted or not same:
                    wrong += 1
                    print(f"{given}\nwanted: {wanted}\nfound: {found}\nthe other files are {'as they were' if same else 'changed'}")
        # a second path that can't be made leaves no first one behind
        for second in (folder / "no_folder" / "home", folder / "folder", folder / "pipe"):
            found = call(program, ["format", folder / "new", second])
            calls += 1
            if first_line(found) != (1, "", f"jbench: file {second}") or (folder / "new").exists():
                wrong += 1
                print(f"format new {second}: {found}")
        # a word that is no text
        done = subprocess.run([os.fsencode(program), b"dump", b"\xff\xfe"], capture_output=True, timeout=10)
        calls += 1
        if done.returncode != 1 or done.stdout or done.stderr.count(b"\n") != 2:
            wrong += 1
            print(f"dump of a path that is no text: {done}")
    print(f"{calls} calls, {wrong} wrong")
    return 1 if wrong else 0


if __name__ == "__main__":
    sys.exit(main(sys.argv[1:]))
