#!/usr/bin/env python3
"""Checks one room over libraries that are there already, which `rt check` would build anew in a fresh clone.

    python3 bench/check_room.py crates/ROOM [--test] [--build] [--fresh] [--only FUNCTION].. [--over CLONE]..

The library of a lower room is taken from this clone's crates/X/out/rlib, else from the first CLONE that has it, such
as one in which `rt ci` ran. All have to be of one build: a library over another build of a lower room is refused. What
was checked is kept in crates/ROOM/out/kept, for bench/proof_times.py, and --fresh begins from nothing; --build leaves
the library in this clone, for the rooms above; the whole output goes to crates/ROOM/out/check.log. It is not the gate.
"""
import argparse
import pathlib
import re
import shutil
import subprocess
import sys
import time

KIT = pathlib.Path("/opt/rattle")

parser = argparse.ArgumentParser(description=__doc__, formatter_class=argparse.RawDescriptionHelpFormatter)
parser.add_argument("room", type=pathlib.Path)
parser.add_argument("--test", action="store_true")
parser.add_argument("--build", action="store_true")
parser.add_argument("--fresh", action="store_true")
parser.add_argument("--only", action="append", default=[])
parser.add_argument("--over", action="append", default=[], type=pathlib.Path)
asked = parser.parse_args()

room = asked.room.resolve()
top = room.parent.parent
lines = [line for line in (top / "crates.txt").read_text().splitlines() if line and line[0] != "#"]
below = {name: names.split() for name, names in (line.split(":") for line in lines)}


def all_below(name):
    """The rooms that the room stands on, all of them."""
    found, left = set(), list(below[name])
    while left:
        it = left.pop()
        if it in below and it not in found:
            found.add(it)
            left += below[it]
    return sorted(found)


def library(name):
    """Where the library of a room is."""
    for clone in [top, *asked.over]:
        path = clone.resolve() / "crates" / name / "out" / "rlib" / f"{name}.rlib"
        if (path / "format").exists():
            return path
    sys.exit(f"no library of {name} is there: name a clone in which it was built, --over CLONE")


rooms = {name: library(name) for name in all_below(room.name)}
kept = room / "out" / ("kept_test" if asked.test else "kept")
if asked.fresh:
    shutil.rmtree(kept, ignore_errors=True)
kept.mkdir(parents=True, exist_ok=True)

root = "src/main.rt" if (room / "src" / "main.rt").exists() else "src/lib.rt"
words = [KIT / "bin" / "rattle", "build" if asked.build else "check", "--crate-name", room.name, root]
for name in {*below[room.name], "std"}:
    words += ["--extern", f"{name}={rooms.get(name, KIT / 'rlibs' / f'{name}.rlib')}"]
for folder in [KIT / "rlibs", *(path.parent for path in rooms.values())]:
    words += ["-L", f"dependency={folder}"]
words += ["--antt-project", KIT / "rattle" / "logic" / "antt-project.json", "--logic-built", KIT / "logic_built"]
words += ["--jobs", "1", "--incremental", kept]
if asked.build:
    (room / "out" / "rlib").mkdir(exist_ok=True)
    words += ["-o", room / "out" / "rlib" / f"{room.name}.rlib"]
words += ["--test"] if asked.test else []
words += [word for name in asked.only for word in ("--only", name)]

begin = time.time()
done = subprocess.run(words, cwd=room, stdout=subprocess.PIPE, stderr=subprocess.STDOUT, text=True)
(room / "out" / "check.log").write_text(done.stdout)
print("\n".join(it for it in done.stdout.splitlines() if not re.match(r"statements |fn .*: proved$", it)))
print(f"{room.name}: status {done.returncode}, {time.time() - begin:.0f} s")
sys.exit(done.returncode)
