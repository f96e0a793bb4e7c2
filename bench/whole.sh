#!/usr/bin/env bash
# Time and memory of the whole command. Run by hand on a built program:   bench/whole.sh crates/rte/out/rte
#
#   puts       32,767 puts compiled, and run for 1,000,000 ticks
#   text       1 MiB of program text, of long names, compiled
#   idle       one process, run to tick 1,000,000,000
#   loops      280 million ticks of loops
#   events     6 million log lines of one process
#   processes  64 processes with 3 million log lines
#   replay     those 3 million lines, 60 MB, judged by the program
#   judged     3 million log lines of one process, 58 MB of the 64 that a log may have, judged by the program
#   beside     1,200 log lines, judged beside a script of 100,000 lines
#   besiderun  the run that put those 1,200 lines
#   script     1,000,000 lines of a script
#   earliest   10 million ticks of two processes under earliest deadline first
#   make       a load of 64 processes
#   image      the image of 65,535 instructions, loaded, tested and run to tick 0
#
# The aims, in seconds, are those of a plain native program for the same rules on a machine of this kind.
set -euo pipefail
here=$(dirname "$(realpath "$0")")
rte=$(realpath "${1:?the built program}")
folder=$(mktemp -d)
trap 'rm -rf "$folder"' EXIT
cd "$folder"

. "$here/rows.sh"
awk 'BEGIN { for (i = 0; i < 60; i++) name = name "a"
    print "program bench process p : periodic frame 1000000000"
    for (i = 0; i < 8; i++) printf "var %s%d : int\n", name, i
    print "begin"
    for (i = 0; i < 5400; i++) printf "%s%d := %s%d + %s%d\n", name, i % 8, name, (i + 1) % 8, name, (i + 3) % 8
    print "end p end bench" }' > text

# measure NAME AIM WORD..
measure() {
    local name=$1 aim=$2
    shift 2
    /usr/bin/time -f '%e s, %M KiB' -o told "$rte" "$@" > put || true
    printf '%-12s %s, %s bytes put (aim %s s)\n' "$name" "$(cat told)" "$(wc -c < put)" "$aim"
}

echo 'end 1000000' > script
measure puts 0.04 go puts image script
measure text 0.12 compile text image2
echo 'end 1000000000' > script
measure idle 0.002 go idle image3 script
echo 'end 280000000' > script
measure loops 0.58 go loops image4 script
echo 'end 39000000' > script
measure events 0.36 go events image5 script
echo 'end 19500000' > script
"$rte" run image5 script > log
measure judged 0.4 replay events script log
echo 'end 15000000' > script
measure processes 0.67 go processes image6 script
"$rte" run image6 script > log
measure replay 0.8 replay processes script log
"$rte" compile sampler image8 > told
"$rte" run image8 often > log
measure besiderun 0.1 run image8 often
measure beside 0.12 replay sampler often log
measure script 0.11 go reader image7 lines
echo 'end 10000000' > script
measure earliest 0.1 edf two script
measure make 0.05 make 7 64 load lines
echo 'end 0' > script
measure image 0.1 run image script
