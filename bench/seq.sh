#!/usr/bin/env bash
# bench/seq.sh [REFERENCE [RUNS]]: `seq` beside the reference program, by turns in one run: the generated load of 250, 1,000, 2,300 and
# 4,000 lines, 2,300 sales on one market, a loop of 100,000 turns, and a loop over a map of 1,000 pairs. It prints the median times in
# milliseconds with their ratio, and the peak memory in KiB.
set -eu
cd "$(dirname "$0")/.."
named=${1:-} runs=${2:-9}
. bench/reference.sh
folder=$(mktemp -d); trap 'rm -rf "$folder"' EXIT

for lines in 250 1000 2300 4000; do python3 bench/load.py 7 "$lines" >"$folder/load-$lines"; done
{ sed '/^----$/q' "$folder/load-250"; for i in $(seq 2300); do echo "request buy($((i % 24)),$((i % 25)),1)"; done; } >"$folder/sales-2300"
cat >"$folder/turns" <<'END'
service Loop {
  event turns(k: int): int {
    here { let s = 0; for i in 0 to k { s = s + i; } }
    reply s;
  }
}
----
END
for _ in 1 2 3 4 5 6 7 8 9 10; do echo 'request turns(99999)'; done >>"$folder/turns"
cat >"$folder/map" <<'END'
service Keys {
  var m: map = empty;
  event fill() { here { for i in 0 to 1000 { m[i * 7 % 1000] = i; } } }
  event sum(): int {
    here { let s = 0; for r in 0 to 20 { for i in 0 to 1000 { s = s + m[i] + size(m); } } }
    reply s;
  }
}
----
request fill()
END
for _ in 1 2 3 4 5 6 7 8 9 10; do echo 'request sum()'; done >>"$folder/map"

median() { sort -n | awk '{ all[NR] = $1 } END { print all[int((NR + 1) / 2)] }'; }
took() { local from to; from=$(date +%s%N); "$@" >"$folder/out" 2>/dev/null || true; to=$(date +%s%N); echo $(((to - from) / 1000)); }
peak() { /usr/bin/time -f %M "$@" 2>&1 >/dev/null | tail -1; }
printf '%12s %14s %14s %8s %12s %12s\n' input 'eventwave, ms' 'reference, ms' ratio 'peak, KiB' 'peak, KiB'
for input in load-250 load-1000 load-2300 load-4000 sales-2300 turns map; do
    : >"$folder/ours"; : >"$folder/theirs"
    for _ in $(seq "$runs"); do
        took "$program" seq <"$folder/$input" >>"$folder/ours"; cp "$folder/out" "$folder/first"
        took "$reference" seq <"$folder/$input" >>"$folder/theirs"
        cmp "$folder/first" "$folder/out"
    done
    awk -v n="$input" -v a="$(median <"$folder/ours")" -v b="$(median <"$folder/theirs")" -v p="$(peak "$program" seq <"$folder/$input")" \
        -v q="$(peak "$reference" seq <"$folder/$input")" 'BEGIN { printf "%12s %14.2f %14.2f %8.2f %12d %12d\n", n, a / 1000, b / 1000, a / b, p, q }'
done
