#!/usr/bin/env bash
# The time of trace_lines on 800 radii: many runs of the built program, against as many on a trace without radii,
# so that what is left is its own work and not the start of a process.
set -eu
cd "$(dirname "$0")/.."
program=crates/trace_lines/out/trace_lines
[ -x "$program" ] || { echo "build it first: cd crates/trace_lines && rt run < stdin" >&2; exit 1; }
runs=${1:-2000}
folder=$(mktemp -d)
trap 'rm -rf "$folder"' EXIT
printf 'RAD\0\1\0\0' >"$folder/none"
{
    printf 'RAD\0\1\3\40'
    for _ in $(seq 800); do printf '\60\71'; done
} >"$folder/many"

# Microseconds of one run on a file, start of the process included.
once() {
    local began=${EPOCHREALTIME/./}
    "$program" <"$1" >/dev/null
    took=$((${EPOCHREALTIME/./} - began))
}

# The least of many runs, in turn on the two files: what other work on the machine adds is left out.
none=1000000 many=1000000
for _ in $(seq "$runs"); do
    once "$folder/none"
    [ "$took" -ge "$none" ] || none=$took
    once "$folder/many"
    [ "$took" -ge "$many" ] || many=$took
done
echo "no radii: $none us a run; 800 radii: $many us a run; own work on 800 radii: $((many - none)) us"
