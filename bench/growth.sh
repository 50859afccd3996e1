#!/usr/bin/env bash
# bench/growth.sh [REFERENCE [RUNS]]: the generated load of 250, 1,000 and 4,000 lines by `seq`, by `run --schedule 7` and by `run` with 1
# and 4 workers, by turns. It prints the median times in milliseconds, the microseconds a line, and by how much a line takes longer than in
# the shortest load. All have to write what the reference's `seq` writes.
set -eu
cd "$(dirname "$0")/.."
named=${1:-} runs=${2:-7}
. bench/reference.sh
folder=$(mktemp -d); trap 'rm -rf "$folder"' EXIT

median() { sort -n | awk '{ all[NR] = $1 } END { print all[int((NR + 1) / 2)] }'; }
took() { local from to; from=$(date +%s%N); "$@" >"$folder/out" 2>/dev/null || true; to=$(date +%s%N); echo $(((to - from) / 1000)); }
ways() {
    echo "seq $program seq"
    echo "schedule-7 $program run --schedule 7"
    for n in 1 4; do echo "workers-$n $program run --workers $n"; done
}

printf '%6s %12s %12s %12s %8s\n' lines way 'time, ms' 'us a line' growth
for lines in 250 1000 4000; do
    python3 bench/load.py 7 "$lines" >"$folder/load"
    "$reference" seq <"$folder/load" >"$folder/want"
    for _ in $(seq "$runs"); do
        while read -r name words; do
            # shellcheck disable=SC2086
            took $words <"$folder/load" >>"$folder/$lines-$name"
            cmp "$folder/want" "$folder/out"
        done < <(ways)
    done
    while read -r name words; do
        time=$(median <"$folder/$lines-$name")
        [ -f "$folder/first-$name" ] || echo "$time $lines" >"$folder/first-$name"
        read -r first few <"$folder/first-$name"
        awk -v n="$lines" -v w="$name" -v t="$time" -v f="$first" -v l="$few" 'BEGIN { printf "%6d %12s %12.2f %12.2f %8.2f\n", n, w, t / 1000, t / n, t / n / (f / l) }'
    done < <(ways)
done
