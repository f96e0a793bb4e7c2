#!/usr/bin/env bash
# Time and memory of reading, testing and writing images. Run by hand on a built program:   bench/images.sh crates/rte/out/rte
#
#   lines   8 MiB: 65,535 instructions, and a tree of 1.5 million segments side by side; read, and refused with V1, since the
#           tree is longer than the code
#   nested  8 MiB: the same, with the segments in loops that nest 129 deep; read, and refused with V1
#   valid   65,535 instructions, each of which is a segment of its own: the largest valid image, loaded, tested and run to
#           tick 0
#   moved   the same, loaded, tested and written again
#
# The aims are those of a plain native program for the same formats: 60 ms and 64 MiB to read or to write 8 MiB, and 150 ms to
# load and test them. It needs python3.
set -euo pipefail
rte=$(realpath "${1:?the built program}")
folder=$(mktemp -d)
trap 'rm -rf "$folder"' EXIT
cd "$folder"

python3 - <<'PYTHON'
from struct import pack

PUTS = 32_767
RUN = 11 * PUTS + 4
LONGEST = 8_388_608
PUSH, OUT, END = 1, 46, 48


def name(text):
    return bytes([len(text)]) + text


def instr(number, operand=0):
    return pack(">Biii", number, operand, 0, 0)


def image(tree):
    """The image, in version 2, of a program whose one process puts 7 to a device 32,767 times."""
    counts = pack(">6HI", 1, 0, 0, 1, 0, 0, 2 * PUTS + 1)
    head = b"RTEU" + pack(">HH", 2, 0) + counts + name(b"a") + name(b"d") + b"\1"
    release = pack(">BIIIHH", 0, RUN, RUN, 0, 0, 1)
    times = pack(">5I", RUN, 0, 0, 0, RUN)
    room = pack(">5I", 0, 1, 0, 0, 0)
    code = (instr(PUSH, 7) + instr(OUT)) * PUTS + instr(END)
    return head + name(b"p") + release + times + room + pack(">H", 0) + tree + code


def line(count):
    return pack(">BI", 1, count)


def lines(count):
    return line(1) * count


def nested(depth, each):
    tree = pack(">I", each) + lines(each)
    for _ in range(depth):
        tree = pack(">I", each + 1) + lines(each) + pack(">BI", 3, 2) + tree
    return tree


room = LONGEST - len(image(pack(">I", 0)))
count = room // 5
with open("lines", "wb") as file:
    file.write(image(pack(">I", count) + lines(count)))
each = (room - 129 * 9) // (130 * 5)
with open("nested", "wb") as file:
    file.write(image(nested(129, each)))
with open("valid", "wb") as file:
    file.write(image(pack(">I", 2 * PUTS) + lines(2 * PUTS)))
PYTHON
echo 'end 0' > script

# measure NAME AIM WORD..
measure() {
    local name=$1 aim=$2
    shift 2
    /usr/bin/time -f '%e s, %M KiB' -o told "$rte" "$@" > put || true
    printf '%-8s %s bytes, %s, put %s (aim %s)\n' "$name" "$(wc -c < "$name")" "$(tail -1 told)" "$(head -c 20 put | head -1)" "$aim"
}

measure lines '0.06 s, 65536 KiB' run lines script
measure nested '0.06 s, 65536 KiB' run nested script
measure valid '0.15 s' run valid script
cp valid moved
measure moved '0.15 s' migrate moved written
cmp valid written
