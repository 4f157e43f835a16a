#!/bin/sh
# Measures what someone new waits for, in a clean clone of this repository: the answers of the first command and of the second, the
# tests without proofs, and then the proved build, or with `--test` the whole test in its place. Prints a line for each: the minutes of
# wall time and of processors, and the most memory that one process took.
#
#     bench/first_run.sh FOLDER [--test]      FOLDER is made, and has the clone
#
# Run it with nothing else running, on a machine whose kit has kept no proofs: what was proved there before is not proved again, and the
# figures are those of the rest.
set -eu

top=$(dirname -- "$(dirname -- "$(readlink -f -- "$0")")")
case "$#:${2-}" in
1: | 2:--test) ;;
*)
    echo "first_run: FOLDER, and at will --test" >&2
    exit 1
    ;;
esac
kept=$(dirname -- "$(dirname -- "$(dirname -- "$(readlink -f -- "$(command -v rt)")")")")/rattle-kept
[ ! -e "$kept" ] || echo "first_run: $kept has proofs that earlier runs kept: no figure is that of a new machine" >&2
git clone -q -- "$top" "$1"
cd "$1"

# Runs a command, and tells its wall time and memory.
measured() {
    name=$1
    shift
    status=0
    /usr/bin/time -o measured -f '%e %U %S %M' "$@" >measured.out 2>measured.err || status=$?
    awk -v name="$name" -v status="$status" 'END { printf "%s: %.1f minutes, %.1f of processors, %.1f GB in the largest process, exit status %d\n", name, $1 / 60, ($2 + $3) / 60, $4 / 1048576, status }' measured
}

echo "processors: $(nproc), memory: $(awk '/^MemTotal:/ { printf "%.0f GB", $2 / 1048576 }' /proc/meminfo), load before: $(cut -d ' ' -f 1 /proc/loadavg)"
measured "first answer" ./jbench run examples/one_write.json
measured "second answer" ./jbench run examples/one_write.json
measured "tests without proofs" ./test --quick
if [ "$#" = 2 ]; then
    measured "whole test" ./test
else
    measured "proved build" ./jbench build
    measured "answer of the proved program" ./jbench run examples/one_write.json
fi
