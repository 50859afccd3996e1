#!/usr/bin/env bash
# bench/text.sh COMMAND [REFERENCE [RUNS]]: `print`, `check` or `code` on a service of 262,144 bytes and on one of a quarter of it, beside
# the reference program, by turns in one run. It prints the median times in milliseconds, their ratio, and how they grow.
set -eu
cd "$(dirname "$0")/.."
command=$1 named=${2:-} runs=${3:-15}
. bench/reference.sh
folder=$(mktemp -d); trap 'rm -rf "$folder"' EXIT

median() { sort -n | awk '{ all[NR] = $1 } END { print all[int((NR + 1) / 2)] }'; }
took() { local from to; from=$(date +%s%N); "$@" >"$folder/out" 2>/dev/null || true; to=$(date +%s%N); echo $(((to - from) / 1000)); }
printf '%10s %12s %14s %8s\n' bytes 'eventwave, ms' 'reference, ms' ratio
for size in 65536 262144; do
    python3 bench/service.py "$size" >"$folder/in"
    : >"$folder/ours"; : >"$folder/theirs"
    for _ in $(seq "$runs"); do
        took "$program" "$command" <"$folder/in" >>"$folder/ours"; cp "$folder/out" "$folder/first"
        took "$reference" "$command" <"$folder/in" >>"$folder/theirs"
        cmp "$folder/first" "$folder/out"
    done
    ours=$(median <"$folder/ours") theirs=$(median <"$folder/theirs")
    awk -v n="$(wc -c <"$folder/in")" -v a="$ours" -v b="$theirs" 'BEGIN { printf "%10d %12.2f %14.2f %8.2f\n", n, a / 1000, b / 1000, a / b }'
    echo "$ours" >"$folder/took.$size"
done
awk -v a="$(cat "$folder/took.65536")" -v b="$(cat "$folder/took.262144")" 'BEGIN { printf "four times the text takes %.2f times as long\n", b / a }'
