#!/usr/bin/env python3
"""The processor minutes of a gate: looks at the running `rattle` processes until the process named is gone.

    rt ci > gate.log & python3 bench/gate_price.py $! > price.tsv

It writes a line for each proof, test and edit, with the seconds of a processor that it took, the dearest first, and last
the sums. What an earlier run on the machine has kept is not tried again, and not seen: so the price from nothing is that
of a run on a fresh machine. A process that lives less than two seconds may be missed.
"""
import collections
import os
import pathlib
import sys
import time

TICKS = os.sysconf("SC_CLK_TCK")
seen = {}


def runs(process):
    """Whether the process is there, and not only what its parent has not yet asked for."""
    try:
        return pathlib.Path(f"/proc/{process}/stat").read_text().rsplit(")", 1)[1].split()[0] != "Z"
    except OSError:
        return False


def look():
    """Notes what each rattle process has taken so far."""
    for entry in pathlib.Path("/proc").iterdir():
        try:
            words = (entry / "cmdline").read_bytes().decode(errors="replace").split("\0")
            if not words[0].endswith("/rattle") or "--crate-name" not in words:
                continue
            fields = (entry / "stat").read_text().rsplit(")", 1)[1].split()
            folder = os.readlink(entry / "cwd")
        except (OSError, IndexError):
            continue
        kind = "edit" if "/rt-edit" in folder else "test" if "--test" in words else "proof"
        name = words[words.index("--crate-name") + 1]
        seen[entry.name, fields[19]] = (kind, name, sum(int(it) for it in fields[11:15]) / TICKS)


while runs(sys.argv[1]):
    look()
    time.sleep(2)
rows, sums = collections.Counter(), collections.Counter()
for kind, name, seconds in seen.values():
    rows[kind, name] += seconds
    sums[kind] += seconds
for (kind, name), seconds in rows.most_common():
    print(f"{kind}\t{name}\t{seconds:.0f}")
for kind, seconds in sums.items():
    print(f"all {kind}s\t{seconds / 60:.1f} minutes")
