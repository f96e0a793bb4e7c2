#!/usr/bin/env bash
# What a refusal with its message costs. Run by hand on a built program:   bench/faults.sh crates/rte/out/rte
#
# Texts of about 1 MiB with one fault at the end, one of each kind of message: a byte (E1), a number (E2), the grammar (E10),
# a name (E20, E22, E23), a type (E30), crossed bounds (E32), what stands where it may not (E34); and the same text without
# a fault, `none`. Each is checked five times. The least milliseconds of the processor are put, those beyond `none`, and
# the first line of the message. A text that is refused has no code made, so it may take less than `none`.
#
# `bytes` is a text of long names, as `text` in whole.sh; `words` one of short names with comments, of three times the words.
set -euo pipefail
rte=$(realpath "${1:?the built program}")
folder=$(mktemp -d)
trap 'rm -rf "$folder"' EXIT
cd "$folder"

# text KIND LAST: the program, with LAST before the end of its process
text() {
    awk -v kind="$1" -v last="$2" 'BEGIN {
        name = ""
        if (kind == "bytes") for (i = 0; i < 60; i++) name = name "a"
        print "program bench device valve : out procedure again() begin again2() end again procedure again2() begin end again2"
        print "process p : periodic frame 1000000000"
        for (i = 0; i < 8; i++) printf "var %sv%d : int\n", name, i
        print "begin"
        count = kind == "bytes" ? 5200 : 15000
        for (i = 0; i < count; i++) {
            printf "%sv%d := %sv%d + %sv%d", name, i % 8, name, (i + 1) % 8, name, (i + 3) % 8
            if (kind == "words") printf " %% %s", "a comment of some fifty bytes stands behind it....."
            print ""
        }
        print last
        print "end p end bench" }'
}

TIMEFORMAT='%U %S'
# milliseconds FILE: the least of five checks
milliseconds() {
    local turn
    for turn in 1 2 3 4 5; do
        { time "$rte" check "$1" > put 2> told || true; } 2>&1
    done | awk '{ t = ($1 + $2) * 1000; if (NR == 1 || t < a) a = t } END { printf "%.0f\n", a }'
}

for kind in bytes words; do
    text $kind '' > none
    base=$(milliseconds none)
    printf '%-6s %-5s %4d ms, %s bytes: %s\n' $kind none "$base" "$(wc -c < none)" "$(tail -1 put)"
    while IFS='|' read -r code last; do
        text $kind "$last" > fault
        took=$(milliseconds fault)
        printf '%-6s %-5s %4d ms, %+d: %s\n' $kind "$code" "$took" $((took - base)) "$(head -1 told)"
    done << 'END'
E1|;
E2|put valve 99999999999
E10|put valve then
E20|put valve nowhere
E22|put valve p
E23|end q process q : periodic frame 10 begin
E30|put valve true
E34|exit when true
E32|for i : 2 .. 1 do end for
END
done
