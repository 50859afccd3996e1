#!/usr/bin/env bash
# bench/again.sh [TIMES [WORKERS [PROCESSORS]]]: traces the generated load so many times in a row, on so many processors, and says
# how many of the runs listed other bytes than `seq` does. It times nothing.
set -eu
cd "$(dirname "$0")/.."
times=${1:-200} workers=${2:-16} processors=${3:-2}
program=${PROGRAM:-crates/eventwave_program/out/eventwave_program}
[ -x "$program" ] || ./eventwave --proved check <examples/counter.wave >/dev/null
folder=$(mktemp -d); trap 'rm -rf "$folder"' EXIT

"$program" gen 7 >"$folder/load"
"$program" seq <"$folder/load" >"$folder/want"
other=0
for _ in $(seq "$times"); do
    taskset -c "0-$((processors - 1))" "$program" trace --workers "$workers" <"$folder/load" | sed '/^journal /,$d' | cmp -s - "$folder/want" || other=$((other + 1))
done
echo "$times runs by $workers workers on $processors processors: $other other"
[ "$other" -eq 0 ]
