#!/usr/bin/env bash
# bench/names.sh [RUNS]: `check` and `code` on services with 250, 500, 1,000 and 2,000 classes, of which each is named by an event, the last ones first. It
# prints the median times in milliseconds, the microseconds a class, and by how much a class takes longer than in the smallest service. Where a name were found
# by a walk over all of them, a class would take eight times as long in the largest.
set -eu
cd "$(dirname "$0")/.."
runs=${1:-15} own=''
. bench/reference.sh
folder=$(mktemp -d); trap 'rm -rf "$folder"' EXIT
median() { sort -n | awk '{ all[NR] = $1 } END { print all[int((NR + 1) / 2)] }'; }
took() { local from to; from=$(date +%s%N); "$@" >"$folder/out"; to=$(date +%s%N); echo $(((to - from) / 1000)); }
service() {
    echo 'service Names {'
    for ((i = 0; i < $1; i++)); do echo "context c$i[int]{var x:int=0;}"; done
    for ((i = $1 - 1; i >= 0; i--)); do echo "event e$i(){down c$i[1]{x=1;}}"; done
    echo '}'
}
printf '%8s %8s %10s %12s %8s\n' classes command 'time, ms' 'us a class' growth
for command in check code; do
    first=''
    for classes in 250 500 1000 2000; do
        service "$classes" >"$folder/in"; : >"$folder/took"
        for _ in $(seq "$runs"); do took "$program" "$command" <"$folder/in" >>"$folder/took"; done
        time=$(median <"$folder/took"); first=${first:-$time}
        awk -v n="$classes" -v c="$command" -v t="$time" -v f="$first" 'BEGIN { printf "%8d %8s %10.2f %12.2f %8.2f\n", n, c, t / 1000, t / n, t / n / (f / 250) }'
    done
done
