#!/usr/bin/env bash
# Time, memory and, where valgrind is there, instructions of the front end on seven texts, all within size.
# Run by hand on a built program:   bench/front_end.sh crates/rte/out/rte
#
#   puts        32,767 puts, with `go` (a run of 1,000,000 ticks) and with `print`
#   rows        320 statements, each a row of 100 terms
#   terms       one expression of 32,000 terms
#   constants   45,000 constants
#   statements  32,000 times `x := 1`
#   uses        48,000 uses of names, in `x := yy + x`
#   wide        1 MiB: the statements of `rows`, with comments and blanks between
#
# Each is measured with `print`, and with `check` too where it has code: rows, terms, statements and uses are some 64,000
# instructions. The aims, in millions of instructions, are those of a plain native program for the same rules.
set -euo pipefail
rte=$(realpath "${1:?the built program}")
folder=$(mktemp -d)
trap 'rm -rf "$folder"' EXIT
cd "$folder"

awk 'BEGIN { print "program bench device valve : out process p : periodic frame 360441 begin"
    for (i = 0; i < 32767; i++) print "put valve 1"
    print "end p end bench" }' > puts
printf 'end 1000000\n' > script
awk 'BEGIN { print "program a process p : periodic frame 1000000 var x : int begin"
    for (n = 0; n < 320; n++) { line = "x := 1"
        for (i = 1; i < 100; i++) line = line " + 1"; print line }
    print "end p end a" }' > rows
awk 'BEGIN { printf "program a process p : periodic frame 1000000 var x : int begin x := 1"
    for (i = 1; i < 32000; i++) printf " + 1"
    print " end p end a" }' > terms
awk 'BEGIN { print "program a"
    for (i = 0; i < 45000; i++) printf "const c%d := %d\n", i, i
    print "process p : periodic frame 10 begin end p end a" }' > constants
awk 'BEGIN { printf "program a process p : periodic frame 1000000 var x : int begin "
    for (i = 0; i < 32000; i++) printf "x := 1 "
    print "end p end a" }' > statements
awk 'BEGIN { printf "program a process p : periodic frame 1000000 var x : int var yy : int begin "
    for (i = 0; i < 16000; i++) printf "x := yy+x "
    print "end p end a" }' > uses
awk 'NR > 1 { printf "%%" ; for (i = 0; i < 2800; i++) printf "."; print "" } { print }' rows > wide

# measure NAME AIM WORD..
measure() {
    local name=$1 aim=$2 counted=""
    shift 2
    /usr/bin/time -f '%e s, %M KiB' -o told "$rte" "$@" > put || true
    if command -v valgrind > /dev/null; then
        valgrind --tool=callgrind --callgrind-out-file=/dev/null "$rte" "$@" > put 2> counts || true
        counted=$(awk '/Collected/ { printf ", %.1f million instructions", $4 / 1e6 }' counts)
    fi
    printf '%-22s %s%s (aim %s)\n' "$name" "$(cat told)" "$counted" "$aim"
}

measure 'go puts' 136 go puts image script
measure 'print puts' - print puts
measure 'print rows' - print rows
measure 'check rows' - check rows
measure 'print terms' - print terms
measure 'check terms' - check terms
measure 'print constants' 173 print constants
measure 'print statements' - print statements
measure 'check statements' - check statements
measure 'print uses' - print uses
measure 'check uses' - check uses
measure 'print wide' - print wide
