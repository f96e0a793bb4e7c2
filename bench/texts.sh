#!/usr/bin/env bash
# Time and memory of images as text, and of the machine at a stop. Run by hand on a built program:
#   bench/texts.sh crates/rte/out/rte
#
#   asm     8 MiB of text, 65,535 instructions and a tree of 1.1 million segments: read, and the image refused with V1, since the
#           tree is longer than the code
#   dis     the image of that text told
#   valid   65,535 instructions and a tree of one segment: assembled
#   back    the same told, which is the text again
#   stop    the state of an idle program before tick 1,000,000,000
#   busy    that of a program that puts before tick 1,000,000, which has the last 16 of its events
#
# The aims: 8 MiB of text each way in 0.2 s, a stop of an idle program in 2 ms. It needs python3.
set -euo pipefail
rte=$(realpath "${1:?the built program}")
folder=$(mktemp -d)
trap 'rm -rf "$folder"' EXIT
cd "$folder"

python3 - <<'PYTHON'
from struct import pack

PUTS = 32_767
RUN = 11 * PUTS + 4
LONGEST = 8_388_608

head = (
    f"image a overhead 0\ndevice d out\nprocess p periodic frame {RUN} deadline {RUN} first 0 rank 1 run {RUN} "
    f"suspend 0 waits 0 block 0 bound {RUN} data 0 stack 1 locals 0 start 0\ntree"
)
code = "\n" + "PUSH 7\nOUT 0\n" * PUTS + "END\nend\n"
room = (LONGEST - len(head) - len(code)) // len(" line 1")
open("long", "w").write(head + " line 1" * room + code)
open("valid", "w").write(head + f" line {2 * PUTS}" + code)


def instr(number, operand=0):
    return pack(">Biii", number, operand, 0, 0)


with open("long.img", "wb") as file:
    file.write(b"RTEU" + pack(">HH", 2, 0) + pack(">6HI", 1, 0, 0, 1, 0, 0, 2 * PUTS + 1) + b"\1a" + b"\1d\1" + b"\1p")
    file.write(pack(">BIIIHH", 0, RUN, RUN, 0, 0, 1) + pack(">5I", RUN, 0, 0, 0, RUN) + pack(">5I", 0, 1, 0, 0, 0))
    file.write(pack(">H", 0) + pack(">I", room) + pack(">BI", 1, 1) * room)
    file.write((instr(1, 7) + instr(46)) * PUTS + instr(48))
open("idle", "w").write("program a process p : periodic frame 1000000000 begin end p end a")
open("puts", "w").write("program a device d : out process p : periodic frame 15 begin put d 7 end p end a")
open("script", "w").write("end 1000000000\n")
open("short", "w").write("end 1000000\n")
PYTHON

# measure NAME WORD..
measure() {
    local name=$1
    shift
    /usr/bin/time -f '%U s, %M KiB' -o told "$rte" "$@" > put || true
    printf '%-6s %s, put %s\n' "$name" "$(tail -n 1 told)" "$(head -n 1 put)"
}

measure asm asm long refused.img
measure dis dis long.img long.txt
cmp long long.txt
measure valid asm valid valid.img
measure back dis valid.img valid.txt
cmp valid valid.txt
"$rte" compile idle idle.img > put
"$rte" compile puts puts.img > put
measure stop watch idle.img script 1000000000
measure busy watch puts.img short 1000000
