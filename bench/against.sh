#!/usr/bin/env bash
# The proved machine against a plain native one. Run by hand on a built program, with rustc at hand:
#   bench/against.sh crates/rte/out/rte [NATIVE]
#
# The yardstick is bench/native, which nobody proved; it is built here, unless NATIVE names it built.
#
# First both run the examples of the guide, generated loads, and all rows of bench/whole.sh that run an image: what they
# put must be the same, byte for byte. Then the rows below are run by both in turn, five times each, and the least times
# are put, with the ratio of the proved program to the native one. The times are those of the processor, user and system
# together, since these are steadier where others use the machine; behind them stands the least time elapsed.
#
#   loops      280 million ticks of loops
#   events     6 million log lines of one process
#   processes  64 processes with 3 million log lines
#   script     1,000,000 lines of a script
#   earliest   10 million ticks of two processes under earliest deadline first, which put
#
# `rte run` tests the image besides, which the native program trusts, and `rte edf` compiles the program, which the native
# program reads as an image: both are small in these rows.
set -euo pipefail
here=$(dirname "$(realpath "$0")")
rte=$(realpath "${1:?the built program}")
folder=$(mktemp -d)
trap 'rm -rf "$folder"' EXIT
native=${2:-$folder/native}
if [ $# -lt 2 ]; then
    rustc --edition 2021 -C opt-level=3 -C codegen-units=1 -C panic=abort -o "$native" "$here/native/main.rs"
fi
native=$(realpath "$native")
examples=$here/../crates/guide/data
cd "$folder"

# same WHAT SCRIPT IMAGE [PROGRAM]: whether both put the same, and end with the same status
same() {
    local proved=0 plain=0
    "$rte" run "$3" "$2" > proved 2> told || proved=$?
    "$native" run "$3" "$2" > plain 2> told || plain=$?
    if [ $proved != $plain ] || ! cmp -s proved plain; then
        echo "differs: run of $1"
        differ=1
    fi
    runs=$((runs + 1))
    if [ $# = 4 ] && "$rte" edf "$4" "$2" > whole 2> told; then
        sed '1,/^feasible$/d' whole > proved
        "$native" edf "$3" "$2" > plain || true
        cmp -s proved plain || { echo "differs: edf of $1"; differ=1; }
        runs=$((runs + 1))
    fi
}

. "$here/rows.sh"
mv lines reader.script
mv often sampler.script
for row in puts:1000000 idle:1000000000 loops:280000000 events:39000000 processes:15000000 two:10000000; do
    echo "end ${row#*:}" > "${row%:*}.script"
done

differ=0 runs=0
for row in puts idle loops events processes reader sampler two; do
    "$rte" compile $row $row.image > told
    same $row $row.script $row.image $row
done
for program in "$examples"/*/*.rte; do
    for overhead in '' 1 7; do
        "$rte" compile "$program" image $overhead > told 2>&1 || continue
        for script in "$(dirname "$program")"/{*.script,script.txt}; do
            [ -f "$script" ] || continue
            if [ "$overhead" ]; then
                same "$program, overhead $overhead" "$script" image
            else
                same "$program" "$script" image "$program"
            fi
        done
    done
done
for key in 1 2 3 4 5 6 7 8; do
    for count in 1 2 7 40 64; do
        "$rte" make $key $count load load.script > told
        "$rte" compile load image > told
        same "load $key $count" load.script image load
    done
done
echo "$runs runs compared"
[ $differ = 0 ] || exit 1

# milliseconds WORD..: puts the milliseconds of the processor and those elapsed
TIMEFORMAT='%R %U %S'
milliseconds() {
    { time "$@" > put; } 2>&1 | awk '{ printf "%.0f %.0f\n", ($2 + $3) * 1000, $1 * 1000 }'
}

# against NAME PROVED NATIVE: runs both in turn
against() {
    local name=$1 turn
    : > proved
    : > plain
    for turn in 1 2 3 4 5; do
        milliseconds "$rte" $2 >> proved
        milliseconds "$native" $3 >> plain
    done
    awk -v name="$name" 'NR == FNR { if (!a || $1 < a) a = $1; if (!b || $2 < b) b = $2; next }
        { if (!c || $1 < c) c = $1; if (!d || $2 < d) d = $2 }
        END { printf "%-10s proved %.3f s, native %.3f s, ratio %.2f   (elapsed %.3f s, %.3f s)\n",
            name, a / 1000, c / 1000, a / c, b / 1000, d / 1000 }' proved plain
}

for row in loops events processes; do
    against $row "run $row.image $row.script" "run $row.image $row.script"
done
against script "run reader.image reader.script" "run reader.image reader.script"
against earliest "edf two two.script" "edf two.image two.script"
