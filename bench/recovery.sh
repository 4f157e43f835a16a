#!/usr/bin/env bash
# Times `jbench recover` beside two C programs: a plain one that reads the log once and writes each copy home with one fsync, and one
# that tests each header of the ring first, as a recovery must, and so reads the log twice. One line for each block size and length of
# the log, with the medians in microseconds and their ratios to the plain program's.
#
# usage: bench/recovery.sh [FOLDER] [ROUNDS]
#
# FOLDER (default: a new one under /dev/shm, a memory file system) is where the files are made; ROUNDS (default: 9) how often each
# is run, one beside the other. Run it by hand on a quiet machine: times are no test. It needs python3 and a C compiler.
set -eu

top=$(dirname -- "$(readlink -f -- "$0")")/..
folder=${1:-$(mktemp -d /dev/shm/recovery.XXXXXX)}
rounds=${2:-9}
mkdir -p "$folder"
trap 'rm -f "$folder"/plain "$folder"/checked "$folder"/log "$folder"/home "$folder"/one.log "$folder"/one.home' EXIT
cc -O2 -o "$folder/plain" "$top/bench/plain_recovery.c"
cc -O2 -o "$folder/checked" "$top/bench/checked_recovery.c"
# The script builds the program, and looks for changed sources each time: so it is not timed.
"$top/jbench" build >/dev/null
program=$top/crates/crash_bench/out/crash_bench

# Microseconds that a command takes.
timed() {
    local begun ended
    begun=$(date +%s%N)
    "$@" >/dev/null
    ended=$(date +%s%N)
    echo $(((ended - begun) / 1000))
}

ratio() { awk "BEGIN { printf \"%.2f\", $1 / $2 }"; }

median() { sort -n | awk '{ a[NR] = $1 } END { print a[int((NR + 1) / 2)] }'; }

# The median of so many runs of a program on fresh copies of the files.
runs() {
    for _ in $(seq "$rounds"); do
        cp "$folder/log" "$folder/one.log"
        cp "$folder/home" "$folder/one.home"
        sync -f "$folder/one.home"
        timed "$@" "$folder/one.log" "$folder/one.home"
    done | median
}

for size in 1024 4096; do
    for blocks in 8192 32768 131072; do
        python3 "$top/bench/make_full_log.py" "$folder/log" "$folder/home" "$blocks" "$size"
        plain=$(runs "$folder/plain")
        checked=$(runs "$folder/checked")
        ours=$(runs "$program" recover)
        echo "size=$size blocks=$blocks plain=${plain}us checked=${checked}us recover=${ours}us" \
            "checked/plain=$(ratio "$checked" "$plain") recover/plain=$(ratio "$ours" "$plain")"
    done
done
