#!/usr/bin/env python3
"""Where the time of a room's proof goes.

    rm -rf crates/ROOM/out && (cd crates/ROOM && rt check --jobs 1)
    python3 bench/proof_times.py crates/ROOM [ROWS]

A check writes one file for each module that it has proved, one after the other; so the time between
two files is that of the later one. Modules are summed by function and by kind: `Lts` are the steps
of the code with what it holds and drops, `Proof` the goals, `Goals` what these say, `Tie` how a
cycle hangs together. Seconds are by the clock, so nothing else should run. A module that a first
use brings in stands by itself, under its own name.
"""
import collections
import os
import re
import sys

KINDS = re.compile(
    r"Answers|Code|Given|Goals|Invariants|Key|Kinds|Layout|Lts(-[^.]*)?|Met|Mir|Named|Proof|Reads|Statement"
    r"|Symbol|TheInside|TheLaws|TheLink|TheReach|Tie|View"
)


def modules(folder):
    """The modules' files in the order in which they were written, as (time, name)."""
    found = []
    for at, _, files in os.walk(folder):
        found += [(os.stat(f"{at}/{it}").st_mtime_ns / 1e9, it[: -len(".oantt")]) for it in files if it.endswith(".oantt")]
    return sorted(found)


def place(name, room):
    """The function of a module, and what the module is of it."""
    name = re.sub(rf"^Rattle-{room}[-.](proofs|specs\.contracts|specs|below)\.", "", name.replace(".decls", ""))
    parts, kind = name.split("."), []
    while len(parts) > 1 and KINDS.fullmatch(parts[-1]):
        kind.insert(0, parts.pop())
    return ".".join(parts), ".".join(kind) or "itself"


def main():
    folder = sys.argv[1].rstrip("/")
    rows = int(sys.argv[2]) if len(sys.argv) > 2 else 30
    kept = [it for it in (f"{folder}/out/kept", f"{folder}/out/incremental") if os.path.isdir(it)]
    found = modules(kept[0] if kept else folder)
    if not found:
        sys.exit(f"{folder}: nothing is kept there; run `rt check` first")
    room = os.path.basename(folder)
    functions, kinds, both = collections.Counter(), collections.Counter(), collections.Counter()
    last = found[0][0]
    for time, name in found:
        function, kind = place(name, room)
        functions[function] += time - last
        kinds[kind] += time - last
        both[function, kind] += time - last
        last = time
    print(f"{room}: {sum(functions.values()):.0f} s;", ", ".join(f"{kind} {seconds:.0f}" for kind, seconds in kinds.most_common(8)))
    for function, seconds in functions.most_common(rows):
        parts = [(kind, it) for (name, kind), it in both.most_common() if name == function and it >= 0.3]
        print(f"{seconds:7.1f}  {function}  ", ", ".join(f"{kind} {it:.1f}" for kind, it in parts))


main()
