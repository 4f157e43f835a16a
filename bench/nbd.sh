#!/usr/bin/env bash
# Requests a second of `jbench serve` beside `nbdkit file` and `qemu-nbd`, whichever of these two are there: fio with its engine nbd over a
# socket of the file system. The server of `jbench` has the socket itself as its standard input and output. The two others serve a plain
# file of the same size. Each server is measured in turn, so many times, and the median of each is told, after the machine, the file system,
# the versions and what the load was. With requests that read comes p99: 99 of 100 reads of a run were answered in that time. The first job
# is `flushed_writes.c`: fio's fsync=16 sends more flushes than one in 16, at these depths 0.3 to 1 for each write of 4 KiB, more to one
# server than to another, and one after each fourth or fifth write of 1 MiB. randrw has 70 reads and 30 writes in 100, its reads are told,
# and its fsync=16 sends nearly a flush for each write to all. The last job drops the page cache before each run, if it may.
#
# usage: bench/nbd.sh [--program PATH] [--runs R] [--seconds S] [--length M] [--home H] [--slow-flush MICROSECONDS]
#        [--loop] [FOLDER]
#
# FOLDER (default: /dev/shm, a memory file system; name one on a disk for that) is where the files are made, in a folder of its own that is
# removed. The program is `./jbench`, which is built first, or the one at PATH. There are R runs of each job and server (default: 5), S
# seconds long (default: 5), on a log of M blocks of 4096 bytes (default: 16384) and a home area of H (default: 65536). With --slow-flush
# each fdatasync and fsync of each server takes so much longer, by `slow_flush.c`. With --loop `jbench` is also measured over loop devices
# on two more such files, as `loop`, which wants root. Run it by hand on a quiet machine: times are no test. It needs cc, and Debian's fio,
# libnbd-bin and python3-libnbd; nbdkit and qemu-utils for what it compares with.
set -eu

program='' runs=5 seconds=5 length=16384 home=65536 slow=0 folder=/dev/shm loop='' devices=''
while [ $# -gt 0 ]; do
    case $1 in
    --program) program=$(readlink -f -- "$2") ;;
    --runs) runs=$2 ;;
    --seconds) seconds=$2 ;;
    --length) length=$2 ;;
    --home) home=$2 ;;
    --slow-flush) slow=$2 ;;
    --loop)
        loop=1
        shift
        continue
        ;;
    --*)
        echo "nbd.sh: $1 is no option of it" >&2
        exit 1
        ;;
    *)
        folder=$(readlink -f -- "$1")
        shift
        continue
        ;;
    esac
    shift 2
done
here=$(dirname -- "$(readlink -f -- "$0")")
program=${program:-$here/../jbench}
folder=$(mktemp -d "$folder/nbd.XXXXXX")
trap 'kill $(jobs -p) 2>/dev/null || true; wait; [ -z "$devices" ] || losetup --detach $devices; rm -rf "$folder"' EXIT
"$program" format "$folder/log" "$folder/home" --block 4096 --length "$length" --home "$home" >/dev/null
cc -O2 -o "$folder/flushed_writes" "$here/flushed_writes.c"
slowly=()
if [ "$slow" != 0 ]; then
    cc -O2 -shared -fPIC -D "MICROSECONDS=$slow" -o "$folder/slow_flush.so" "$here/slow_flush.c"
    slowly=(env "LD_PRELOAD=$folder/slow_flush.so")
fi
# Both are written, so that no server meets holes.
head -c "$((home * 4096))" /dev/zero >"$folder/plain"
sync "$folder/plain"

echo "machine: $(nproc) x $(sed -n 's/^model name[^:]*: //p' /proc/cpuinfo | head -n 1)," \
    "$(awk '/^MemTotal/ {printf "%.0f GB", $2 / 1048576}' /proc/meminfo)"
echo "system: $(uname -srm); files on $(df --output=fstype,source "$folder" | tail -n 1 | tr -s ' '), load $(cut -d' ' -f1-3 /proc/loadavg)"
echo "versions: $(dpkg-query -W -f '${Package} ${Version} ' fio nbdkit qemu-utils libnbd0 2>/dev/null)"
echo "runs=$runs seconds=$seconds length=$length home=$home slow-flush=$slow"

stores=jbench
/usr/bin/python3 -B "$here/../trials/served.py" "$folder/jbench" \
    "${slowly[@]}" "$program" serve "$folder/log" "$folder/home" 2>/dev/null &
if [ -n "$loop" ]; then
    stores="$stores loop"
    "$program" format "$folder/loop_log" "$folder/loop_home" --block 4096 --length "$length" --home "$home" >/dev/null
    for file in "$folder/loop_log" "$folder/loop_home"; do devices="$devices $(losetup --find --show "$file")"; done
    # shellcheck disable=SC2086 # two devices
    /usr/bin/python3 -B "$here/../trials/served.py" "$folder/loop" \
        "${slowly[@]}" "$program" serve $devices 2>/dev/null &
fi
if command -v nbdkit >/dev/null; then
    stores="$stores nbdkit"
    "${slowly[@]}" nbdkit -f -U "$folder/nbdkit" file "$folder/plain" &
fi
if command -v qemu-nbd >/dev/null; then
    stores="$stores qemu-nbd"
    "${slowly[@]}" qemu-nbd --socket "$folder/qemu-nbd" --format raw --persistent "$folder/plain" &
fi
for store in $stores; do
    until [ -S "$folder/$store" ]; do sleep 0.1; done
done

# One run of a job with a server: its requests a second and, if it reads, p99 in microseconds.
run() {
    if [ "$2" = flushed ]; then
        "$folder/flushed_writes" "$folder/$1" "$seconds"
        return
    fi
    local kind=$2
    if [ "$kind" = cold ]; then
        kind=randread
        sync
        echo 3 >/proc/sys/vm/drop_caches
    fi
    fio --name=job --ioengine=nbd --uri="nbd+unix:///?socket=$folder/$1" --rw="$kind" --rwmixread=70 --bs="$3" --iodepth="$4" --fsync="$5" \
        --size="$((home * 4096))" --time_based --runtime="$seconds" --output-format=json >"$folder/fio.json" 2>"$folder/fio.said" ||
        { cat "$folder/fio.said" >&2 && exit 1; }
    python3 -c "
import json, sys
text = open(sys.argv[1]).read()
job = json.loads(text[text.index('{'):])['jobs'][0]
assert job['error'] == 0
if 'write' in sys.argv[2]:
    print(job['write']['iops'])
else:
    print(job['read']['iops'], job['read']['clat_ns']['percentile']['99.000000'] / 1000)" "$folder/fio.json" "$kind"
}

# The first job's words only name it: its client has these numbers.
jobs=("flushed 4k 16 16" "randwrite 4k 16 16" "randwrite 4k 16 0" "write 1m 4 0" "write 1m 4 16"
    "randread 4k 16 0" "read 1m 4 0" "randrw 4k 16 0" "randrw 4k 16 16")
if [ -w /proc/sys/vm/drop_caches ]; then
    jobs+=("cold 4k 16 0")
else
    echo "no reads of a disk: the page cache may not be dropped here"
fi
for job in "${jobs[@]}"; do
    for store in $stores; do : >"$folder/$store.figures"; done
    for ((i = 0; i < runs; i++)); do
        for store in $stores; do
            # shellcheck disable=SC2086 # the words of a job
            run "$store" $job >>"$folder/$store.figures"
        done
    done
    read -r kind size depth flush <<<"$job"
    # shellcheck disable=SC2086 # the names of the servers
    python3 -c "
import statistics, sys
kind, size, depth, flush, folder, *stores = sys.argv[1:]
runs = {store: zip(*(map(float, run.split()) for run in open(f'{folder}/{store}.figures'))) for store in stores}
figures = {store: [statistics.median(column) for column in columns] for store, columns in runs.items()}
def told(store, figure, *late):
    return f'{store} {figure:8.0f} a second ({figure / figures[\"jbench\"][0]:.2f})' + ''.join(f', p99 {time:6.0f} us' for time in late)
name = f'{kind} {size}, {depth} at once' + (f', fsync={flush}' if flush != '0' else '')
if kind == 'cold':
    name = f'randread {size}, {depth} at once, page cache dropped'
if kind == 'flushed':
    name = f'randwrite {size}, {depth} at once, a flush after {flush}'
print(f'{name:44}', '  '.join(told(store, *columns) for store, columns in figures.items()), flush=True)" \
        "$kind" "$size" "$depth" "$flush" "$folder" $stores
done
echo "load $(cut -d' ' -f1-3 /proc/loadavg)"
