#!/usr/bin/env bash
# bench/vm.sh [TICKS [REFERENCE [RUNS]]]: an event that counts to a number (at most 100,000) in one segment, a tick each. Beside it a plain
# loop of as many turns, and the reference program, which runs the same event as often by `seq`, by turns in one run. It prints the medians
# of the nanoseconds a tick, and of the ratios. The reference's start is taken off: it is timed with as many events that count to 0.
set -eu
cd "$(dirname "$0")/.."
ticks=${1:-100000} named=${2:-} runs=${3:-15} own=1
. bench/reference.sh
events=10
# Where it is not built yet, or a source is newer, `rt run` proves and builds it.
(cd crates/bench_vm; rt run -- 1000 >/dev/null 2>&1 || { rt run -- 1000; exit 1; })
program=crates/bench_vm/out/bench_vm
folder=$(mktemp -d); trap 'rm -rf "$folder"' EXIT

median() { sort -n | awk '{ all[NR] = $1 } END { print all[int((NR + 1) / 2)] }'; }
# The input on which the reference runs events that count to this number.
script() {
    printf 'service Spin {\n  event spin(n: int): int { here { let i = 0; while i < n { i = i + 1; } } reply i; }\n}\n----\n'
    for _ in $(seq "$events"); do echo "request spin($1)"; done
}
took() { local from to; from=$(date +%s%N); "$reference" seq <"$1" >"$folder/out"; to=$(date +%s%N); echo $((to - from)); }

script 0 >"$folder/start"
script "$ticks" >"$folder/in"
"$reference" seq <"$folder/in" | grep -qx "#$events spin = $ticks" || { echo "the reference does not count to $ticks"; exit 1; }
[ "$("$program" "$ticks")" = "reply $ticks" ] || { echo "the event does not count to $ticks"; exit 1; }
for _ in $(seq "$runs"); do
    ours=$("$program" "$ticks" "$events")
    start=$(took "$folder/start") whole=$(took "$folder/in")
    awk -v n="$((ticks * events))" -v theirs="$((whole - start))" '{ event += $1; plain += $2 } END { print event / n, plain / n, theirs / n, event / theirs, event / plain }' <<<"$ours" >>"$folder/times"
done
column() { awk -v k="$1" '{ print $k }' "$folder/times" | median; }
printf '%s ticks an event, %s runs of %s events: nanoseconds a tick\n' "$ticks" "$runs" "$events"
printf '%12s %12s %12s %18s %14s\n' event 'plain loop' reference 'event/reference' 'event/plain'
printf '%12.2f %12.2f %12.2f %18.2f %14.2f\n' "$(column 1)" "$(column 2)" "$(column 3)" "$(column 4)" "$(column 5)"
