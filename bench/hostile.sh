#!/usr/bin/env bash
# Images, texts and files that are hostile: whether each is loaded or refused in time in proportion to its bytes.
# Run by hand on a built program:   bench/hostile.sh crates/rte/out/rte
#
#   trees 130, trees 131     loops of one turn in one another: the deepest tree that there may be, and one that is deeper
#   forks 130                the same of branches
#   towers                   8 MiB of trees 130 deep, over code of one instruction
#   deepest                  8 million segments of one byte below 129 loops in one another, over code of one instruction
#   exits                    8 MiB of segments of one byte
#   line                     65,534 instructions in one segment; `lines`: each in one of its own; `no end`: 65,535 and no END
#   pushes                   32,767 operands on the stack
#   loops 60                 60 loops of 1,000,000 turns in one another
#   chain                    512 routines, each of which calls the one before
#   calls all                361 routines, each of which calls all before it, and the process the last one
#   calls unused             the same, called by an entry alone, which nobody calls
#   calls 127                512 routines, each of which calls the 127 before it
#   handlers                 64 processes, each with all 994 numbers that a handler may have
#   idle 64                  64 processes released at one tick, again and again, up to tick 1,000,000
#   events 64                64 events at one tick, again and again, 896,000 in all
#   image, text, script 1 G  files of 1 GiB; `endless`: one that never ends
#   full                     a text of 64 processes, the first three of which use the whole processor: the search for a least bound
#                            begins where its work fits what they leave, so its recurrences take 4 evaluations
#
# Each line tells the bytes of what is read, seconds of the processor, KiB, and the first line that was put; the status is 1
# where that is not the one that is due.
set -euo pipefail
rte=$(realpath "${1:?the built program}")
folder=$(mktemp -d)
trap 'rm -rf "$folder"' EXIT
cd "$folder"

python3 - << 'PYTHON'
from struct import pack

OVER, FRAME = 1_000_000_001, 1_000_000_000
PUSH, STL, NOT, AND, JZ, JMP, REPS, REP, CALL, RET, ENTER, LEAVE, END = 1, 3, 15, 16, 30, 31, 32, 33, 35, 36, 38, 39, 48


def u16(*numbers):
    return pack(f">{len(numbers)}H", *numbers)


def u32(*numbers):
    return pack(f">{len(numbers)}I", *numbers)


def name(word):
    return bytes([len(word)]) + word.encode()


def tree(*segments):
    return u32(len(segments)) + b"".join(segments)


def line(count):
    return b"\1" + u32(count)


def loop(turns, body):
    return b"\3" + u32(turns) + body


def call(routine):
    return b"\4" + u16(routine)


def routine(start, run, body, kind=0, stay=0):
    return bytes([kind]) + u16(0, 0) + u32(0) + b"\0" + u32(start, run, 0, 0, stay) + body


def process(body, number=0, frame=FRAME, event=None, run=4, bound=None, stack=0, locals=0, start=0, handler=(), second=b""):
    kind = b"\0" if event is None else b"\1"
    times = u32(run, 0, 0, 0, run if bound is None else bound, 0, stack, locals, start, start + 1 if handler else 0)
    numbers = u16(len(handler), *handler)
    return name(f"p{number}") + kind + u32(frame, frame, 0) + u16(event or 0, number + 1) + times + numbers + body + second


def write(file, processes, code, routines=(), monitors=(), events=()):
    counts = u16(len(processes), len(monitors), 0, 0, len(events), len(routines)) + u32(len(code))
    parts = [*events, *monitors, *routines, *processes]
    bytes_of_code = b"".join(pack(">B3i", *row, *[0] * (4 - len(row))) for row in code)
    with open(file, "wb") as out:
        out.write(b"RTEU" + u16(2, 0) + counts + name("a") + b"".join(parts) + bytes_of_code)


def loops(depth, turns):
    body = tree()
    for _ in range(depth):
        body = tree(loop(turns, body))
    code = [(REPS, turns)] * depth + [(REP, start) for start in range(depth, 0, -1)] + [(END,)]
    return body, code


def forks(depth):
    body = tree()
    for _ in range(depth):
        body = tree(line(1), b"\2" + body + tree())
    after = range(3 * depth, 2 * depth, -1)
    code = [row for target in after for row in ((PUSH, 1), (JZ, target))]
    return body, code + [(JMP, target) for target in reversed(after)] + [(END,)]


def calling(count, most):
    """Routines that call so many of those before them: their bytes, code and costs, and the last one's depth."""
    routines, code, runs = [], [], []
    for k in range(count):
        called = range(max(0, k - most), k)
        runs.append(min(OVER, 4 + sum(6 + runs[j] for j in called)))
        routines.append(routine(len(code), runs[k], tree(*map(call, called))))
        code += [(CALL, j) for j in called] + [(RET,)]
    return routines, code, runs


body, code = loops(129, 1)
write("trees 130", [process(body, run=649, stack=129)], code)
body, code = loops(130, 1)
write("trees 131", [process(body, run=654, stack=130)], code)
body, code = loops(60, 1_000_000)
write("loops 60", [process(body, run=OVER, bound=FRAME, stack=60)], code)
body, code = forks(129)
write("forks 130", [process(body, run=520, stack=1)], code)
tower, _ = loops(129, 1)
write("towers", [process(tree(*[tower[4:]] * 7_225))], [(END,)])
deepest = u32(8_380_000) + b"\7" * 8_380_000
for _ in range(129):
    deepest = u32(1) + b"\3" + u32(1) + deepest
write("deepest", [process(deepest)], [(END,)])
write("exits", [process(u32(8_388_000) + b"\7" * 8_388_000)], [(END,)])
code = [(PUSH, 1)] + [(NOT,)] * 65_532 + [(STL, 0), (END,)]
sizes = {"run": 65_539, "stack": 2, "locals": 1}
write("line", [process(tree(line(65_534)), **sizes)], code)
write("lines", [process(tree(*[line(1)] * 65_534), **sizes)], code)
write("no end", [process(tree(line(65_535)), **sizes)], code[:-1] + [(NOT,)])
code = [(PUSH, 1)] * 32_767 + [(AND,)] * 32_766 + [(STL, 0), (END,)]
write("pushes", [process(tree(line(65_534)), run=65_539, stack=4_096, locals=1)], code)
routines, code, runs = calling(512, 1)
write("chain", [process(tree(call(511)), run=runs[511] + 10, stack=1_024, start=len(code))], code + [(CALL, 511), (END,)], routines)
routines, code, runs = calling(512, 127)
last = process(tree(call(511)), run=OVER, bound=FRAME, stack=1_024, start=len(code))
write("calls 127", [last], code + [(CALL, 511), (END,)], routines)
routines, code, runs = calling(361, 361)
last = process(tree(call(360)), run=OVER, bound=FRAME, stack=722, start=len(code))
write("calls all", [last], code + [(CALL, 360), (END,)], routines)
entry = routine(len(code), OVER, tree(b"\5" + u16(0) + tree(call(360))), kind=2, stay=OVER)
code += [(ENTER, 0), (CALL, 360), (LEAVE, 0), (RET,), (END,)]
monitor = name("m") + u32(0, 0) + u16(65_535)
write("calls unused", [process(tree(), start=len(code) - 1)], code, [*routines, entry], [monitor])
numbers = [*range(1, 5), *range(10, 1_000)]
handlers = [process(tree(), k, bound=4 * k + 4, start=2 * k, handler=numbers, second=tree()) for k in range(64)]
write("handlers", handlers, [(END,)] * 128)
write("idle 64", [process(tree(), k, 256, bound=4 * k + 4, start=k) for k in range(64)], [(END,)] * 64)
waiting = [process(tree(), k, 256, k, bound=4 * k + 4, start=k) for k in range(64)]
write("events 64", waiting, [(END,)] * 64, events=[name(f"e{k}") for k in range(64)])
with open("occur", "w") as out:
    for tick in range(0, 14_000 * 256, 256):
        out.writelines(f"{tick} event e{k}\n" for k in range(64))
    out.write("end 3584000\n")
with open("full", "w") as out:
    frames = [10, 10, 20, *[FRAME] * 61]
    out.write("program a " + " ".join(f"process p{k} : periodic frame {frame} begin end p{k}" for k, frame in enumerate(frames)))
    out.write(" end a\n")
PYTHON
for end in 0 1000 1000000; do echo "end $end" > "end $end"; done
for kind in image text script; do truncate -s 1G "$kind 1 G"; done
wrong=0

# measure FILE LINE WORD..: the file that is told of, the first line that is due, and the words of the call
measure() {
    local file=$1 due=$2 first bytes
    shift 2
    /usr/bin/time -q -f '%U s, %M KiB' -o told "$rte" "$@" > put || true
    first=$(head -n 1 put)
    bytes=endless
    [ -c "$file" ] || bytes=$(stat -c %s "$file")
    printf '%-14s %10s bytes, %s: %s\n' "$(basename "$file")" "$bytes" "$(cat told)" "$first"
    if [ "$first" != "$due" ]; then
        echo "  $due was due"
        wrong=1
    fi
}

measure 'trees 130' '0 p0 release' run 'trees 130' 'end 1000'
measure 'trees 131' 'I4 1258' run 'trees 131' 'end 1000'
measure 'forks 130' '0 p0 release' run 'forks 130' 'end 1000'
measure towers 'V1 0 0' run towers 'end 0'
measure deepest 'V1 0 0' run deepest 'end 0'
measure exits 'V1 0 0' run exits 'end 0'
measure line '0 p0 release' run line 'end 1000000'
measure lines '0 p0 release' run lines 'end 1000000'
measure 'no end' 'V1 0 0' run 'no end' 'end 0'
measure pushes 'V3 4096 4098' run pushes 'end 0'
measure 'loops 60' 'V5 1000000000 1000000001' run 'loops 60' 'end 0'
measure chain '0 p0 release' run chain 'end 1000000'
measure 'calls all' 'V5 1000000000 1000000001' run 'calls all' 'end 0'
measure 'calls unused' '0 p0 release' run 'calls unused' 'end 1000'
measure 'calls 127' 'V5 1000000000 1000000001' run 'calls 127' 'end 0'
measure handlers '0 p0 release' run handlers 'end 1000'
measure 'idle 64' '0 p0 release' run 'idle 64' 'end 1000000'
measure 'events 64' '0 p0 release' run 'events 64' occur
measure 'image 1 G' 'I9 8388608' run 'image 1 G' 'end 0'
measure 'text 1 G' 'E4 1:1' check 'text 1 G'
measure 'script 1 G' 'S6 0' run 'trees 130' 'script 1 G'
measure /dev/zero 'E4 1:1' check /dev/zero
measure full 'program a' check full
exit "$wrong"
