#!/usr/bin/env bash
# bench/hosts.sh [FINDS [RUNS]]: finds over 1,000 contexts on 8 hosts, an eighth of which is found, beside Rust's HashMap, by turns in one
# run. It prints the medians of the nanoseconds a find, and of their ratios. It wants rustc.
set -eu
cd "$(dirname "$0")/.."
finds=${1:-1000000} runs=${2:-15}
# Where it is not built yet, or a source is newer, `rt run` proves and builds it.
(cd crates/bench_hosts; rt run -- 1000 >/dev/null 2>&1 || { rt run -- 1000; exit 1; })
program=crates/bench_hosts/out/bench_hosts
folder=$(mktemp -d); trap 'rm -rf "$folder"' EXIT
rustc -O -o "$folder/hosts" bench/hosts.rs

median() { sort -n | awk '{ all[NR] = $1 } END { print all[int((NR + 1) / 2)] }'; }
for _ in $(seq "$runs"); do
    paste -d' ' <("$program" "$finds" 1) <("$folder/hosts" "$finds" 1)
done | awk -v n="$finds" '{ if ($2 != $4) { print "they differ: " $0 > "/dev/stderr"; exit 1 } print $1 / n, $3 / n, $1 / $3 }' >"$folder/times"
column() { awk -v k="$1" '{ print $k }' "$folder/times" | median; }
printf '%s finds, %s runs: nanoseconds a find\n%12s %12s %12s\n' "$finds" "$runs" host_map HashMap ratio
printf '%12.1f %12.1f %12.2f\n' "$(column 1)" "$(column 2)" "$(column 3)"
