#!/usr/bin/env bash
# Durable transactions a second of `jbench bench` beside a plain log in C with two syncs a commit, LMDB, and SQLite in WAL mode with
# synchronous=FULL: transactions of 3 blocks of 1024 bytes, by one thread or by so many at once. Each store is run in turn, so many times,
# on new files, and the median of each is told, after the machine, the file system and the versions.
#
# usage: bench/commits.sh [--program PATH] [--threads N] [--runs R] [--seconds S] [--copies K] [--length M] [--home H] [--loop] [FOLDER]
#
# FOLDER (default: /dev/shm, a memory file system; name one on a disk for that) is where the files are made, in a folder of its own that is
# removed. The program is `./jbench`, which is built first, or the one at PATH. There are R runs of each store (default: 5), S seconds long
# (default: 3), with transactions of K blocks (default: 3). The log of `jbench` has M blocks (default: 8192), and the home area of each store
# H (default: as many): a log that is longer than its home area flatters the journal, since a round writes each block once. With --threads
# each store is used by N threads at once: the plain log commits what all have brought by then, SQLite and LMDB let one write at a time,
# and `jbench` gets `--threads N`; without it `jbench` has no thread. With --loop `jbench` is also measured over loop devices on such files,
# as `loop`, which wants root. Run it by hand on a quiet machine: times are no test. It needs a C compiler and the headers of LMDB and SQLite
# (packages liblmdb-dev and libsqlite3-dev).
set -eu

program= threads= runs=5 seconds=3 copies=3 length=8192 home= folder=/dev/shm devices=
stores="plain_log lmdb_store sqlite_store jbench"
while [ $# -gt 0 ]; do
    case $1 in
    --program) program=$(readlink -f -- "$2") ;;
    --threads) threads=$2 ;;
    --runs) runs=$2 ;;
    --seconds) seconds=$2 ;;
    --copies) copies=$2 ;;
    --length) length=$2 ;;
    --home) home=$2 ;;
    --loop)
        stores="$stores loop"
        shift
        continue
        ;;
    --*)
        echo "commits.sh: $1 is no option of it" >&2
        exit 1
        ;;
    *)
        folder=$(readlink -f -- "$1")
        shift
        continue
        ;;
    esac
    shift 2
done
home=${home:-$length}
top=$(dirname -- "$(readlink -f -- "$0")")/..
program=${program:-$top/jbench}
folder=$(mktemp -d "$folder/commits.XXXXXX")
trap '[ -z "$devices" ] || losetup --detach $devices; rm -rf "$folder"' EXIT
for store in plain_log lmdb_store:-llmdb sqlite_store:-lsqlite3; do
    cc -O2 -pthread -DHOME_BLOCKS="$home" -o "$folder/${store%%:*}" "$top/bench/commits/main.c" "$top/bench/commits/${store%%:*}.c" \
        $(echo "$store:" | cut -d: -f2)
done
"$program" --help >/dev/null

# What it is measured on.
echo "machine: $(nproc) x $(sed -n 's/^model name[^:]*: //p' /proc/cpuinfo | head -n 1), $(awk '/^MemTotal/ {printf "%.0f GB", $2 / 1048576}' /proc/meminfo)"
echo "system: $(uname -srm); files on $(df --output=fstype,source "$folder" | tail -n 1 | tr -s ' '), load $(cut -d' ' -f1 /proc/loadavg)"
echo "versions: $(rt version 2>/dev/null || echo 'no rt'); cc $(cc -dumpfullversion); $(dpkg-query -W -f '${Package} ${Version} ' liblmdb-dev libsqlite3-dev 2>/dev/null)"
echo "runs=$runs seconds=$seconds threads=${threads:-none} copies=$copies length=$length home=$home"

# One run of a store: its transactions a second.
run() {
    mkdir "$folder/files"
    if [ "$1" = jbench ] || [ "$1" = loop ]; then
        set -- "$1" "$folder/files/log" "$folder/files/home"
        "$program" format "$2" "$3" --length "$length" --home "$home" >/dev/null
        if [ "$1" = loop ]; then
            devices=$(losetup --find --show "$2")
            devices="$devices $(losetup --find --show "$3")"
            # shellcheck disable=SC2086 # two devices
            set -- "$1" $devices
        fi
        "$program" bench "$2" "$3" --seconds "$seconds" --copies "$copies" ${threads:+--threads "$threads"} >"$folder/last" 2>/dev/null
        sed -n 's/^transactions .*, \([0-9]*\) a second$/\1/p' "$folder/last"
        sed -n "/^commit/s/^/$1: /p" "$folder/last" >>"$folder/commits"
        # shellcheck disable=SC2086
        [ -z "$devices" ] || losetup --detach $devices
        devices=
    else
        "$folder/$1" "$folder/files" "$seconds" "$copies" "${threads:-1}" | sed 's|.* transactions/s=\([0-9]*\) .*|\1|'
    fi
    rm -rf "$folder/files"
}

# The stores take turns, so that what else the machine does meets all of them.
for _ in $(seq "$runs"); do
    for store in $stores; do
        run "$store" >>"$folder/$store.figures"
    done
done
for store in $stores; do
    echo "$store: median $(sort -n "$folder/$store.figures" | sed -n "$(((runs + 1) / 2))p") a second of $(sort -n "$folder/$store.figures" | tr '\n' ' ')"
done
cat "$folder/commits"
