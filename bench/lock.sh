#!/usr/bin/env bash
# bench/lock.sh [TURNS [RUNS]]: threads enter and leave a kept lock, and std's Mutex beside it, by turns in one run.
# It prints, for 1, 2 and 4 threads, the median of the runs' times in milliseconds and the median of their ratios.
set -eu
cd "$(dirname "$0")/../crates/bench_lock"

turns=${1:-1000000} runs=${2:-15}
# Where it is not built yet, or a source is newer, `rt run` proves and builds it.
rt run -- 1000 1 >/dev/null 2>&1 || { rt run -- 1000 1; exit 1; }

median() { sort -n | awk '{ all[NR] = $1 } END { print all[int((NR + 1) / 2)] }'; }
printf '%s turns, %s runs\n%8s %14s %14s %8s\n' "$turns" "$runs" threads 'kept lock, ms' 'Mutex, ms' ratio
for threads in 1 2 4; do
    times=$(out/bench_lock "$turns" "$threads" "$runs")
    kept=$(awk '{ print $2 / 1e6 }' <<<"$times" | median)
    plain=$(awk '{ print $3 / 1e6 }' <<<"$times" | median)
    ratio=$(awk '{ print $2 / $3 }' <<<"$times" | median)
    printf '%8s %14.1f %14.1f %8.2f\n' "$threads" "$kept" "$plain" "$ratio"
done
