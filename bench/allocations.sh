#!/usr/bin/env bash
# Each allocation of each command fails in turn: the status is 8, with nothing put and no file changed (but of `make` that of the
# program, where the write of the script lacks memory), or all that is due is done.
# Run by hand on a built program:   bench/allocations.sh crates/rte/out/rte [TEXT SCRIPT]
#
# TEXT and SCRIPT are those of a wait that is signalled, where they are not named. The program allocates by malloc and realloc of
# the C library; a library that is loaded before it makes the call number FAIL answer that there is none, and where ALL=1 is set,
# each call after that one too. Each command is run for each of its allocations, or with STEP=N for each Nth.
# Each line tells a command, its allocations, how many of them were made to fail, and how often the status was then 8, and 0 with all
# done; each other answer has a line of its own, and the status is then 1.
set -euo pipefail
rte=$(realpath "${1:?the built program}")
text=$(realpath "${2:-/dev/null}")
script=$(realpath "${3:-/dev/null}")
folder=$(mktemp -d)
trap 'rm -rf "$folder"' EXIT
cd "$folder"

cat > fail.c << 'C'
#include <stdio.h>
#include <stdlib.h>
extern void *__libc_malloc(size_t size);
extern void *__libc_realloc(void *old, size_t size);
static long calls, first;
static int all;
__attribute__((constructor)) static void begin(void) {
    first = atol(getenv("FAIL"));
    all = getenv("ALL") != NULL;
    calls = 0;
}
static int fails(void) {
    calls++;
    return calls == first || (all && first > 0 && calls > first);
}
void *malloc(size_t size) { return fails() ? NULL : __libc_malloc(size); }
void *realloc(void *old, size_t size) { return fails() ? NULL : __libc_realloc(old, size); }
__attribute__((destructor)) static void end(void) {
    long made = calls;
    first = 0;
    FILE *count = fopen("count", "w");
    if (count != NULL) fprintf(count, "%ld\n", made), fclose(count);
}
C
cc -O2 -shared -fPIC -o fail.so fail.c

if [ "$text" = /dev/null ]; then
    echo 'program d device a : out monitor m condition c entry procedure w() begin wait c noLongerThan 30 : 10 end w
        entry procedure s() begin signal c end s end m process p : periodic frame 200 begin m.w() handler (10) put a 1 end p
        process q : periodic frame 300 first activation atTime 31 begin m.s() end q end d' > P
    echo 'end 100' > S
else
    cp "$text" P
    cp "$script" S
fi
"$rte" go P K S > put
"$rte" run K S > L
"$rte" dis K A
echo 'program e device a : out process p : periodic frame 30 begin put a 1 end p process q : periodic frame 52 begin put a 2 end q end e' > Q
wrong=0

# call N WORD..: the status of the call whose allocation N fails, over files I and J of old
call() {
    local number=$1 status=0
    shift
    echo before > I
    echo before > J
    FAIL=$number LD_PRELOAD=./fail.so "$rte" "$@" > put || status=$?
    return "$status"
}

# try_all WORD..
try_all() {
    local number status whole kept count found tried=0 wanting=0 due=0
    call 0 "$@"
    whole=$(sha256sum I J put)
    cp I first
    count=$(cat count)
    echo before > I
    echo before > J
    : > put
    kept=$(sha256sum I J put)
    cp first I
    first=$(sha256sum I J put)
    for ((number = 1; number <= count; number += ${STEP:-1})); do
        status=0
        call "$number" "$@" || status=$?
        found=$(sha256sum I J put)
        tried=$((tried + 1))
        if [ "$status" = 8 ] && [ "$found" = "$kept" ]; then
            wanting=$((wanting + 1))
        elif [ "$1" = make ] && [ "$status" = 8 ] && [ "$found" = "$first" ]; then
            wanting=$((wanting + 1))
        elif [ "$status" = 0 ] && [ "$found" = "$whole" ]; then
            due=$((due + 1))
        else
            echo "$*: allocation $number fails: status $status, $(stat -c %s put) bytes put"
            wrong=1
        fi
    done
    echo "$*: $count allocations, $tried failed in turn: $wanting times 8, $due times 0"
}

try_all check P
try_all print P
try_all json P
try_all compile P I
try_all run K S
try_all migrate K J
try_all go P I S
try_all slack P
try_all why P
try_all fit P
try_all watch K S 40
try_all dis K I
try_all asm A I
try_all replay P S L
try_all edf Q S
try_all make 7 2 I J
exit "$wrong"
