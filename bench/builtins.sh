#!/usr/bin/env bash
# bench/builtins.sh [REFERENCE [RUNS]]: the builtins of version 2 of the language beside the reference program's `seq`, by turns in one run:
# `min`, `max`, `abs`, `starts`, `num` and `sum`, each 470,000 times on the same operands (`sum` on maps of 20 and of 1,000 pairs, as often as
# these have 470,000 pairs). It prints the median times in milliseconds with their ratio. PROGRAM in the environment stands for another built
# program.
set -eu
cd "$(dirname "$0")/.."
named=${1:-} runs=${2:-7}
. bench/reference.sh
folder=$(mktemp -d); trap 'rm -rf "$folder"' EXIT

cat >"$folder/service" <<'END_OF_SERVICE'
service Builtins 2 {
  var m: map = empty;
  var t: text = "";
  event fill(n: int, word: text) { here { for i in 0 to n { m[i] = i; } t = word; } }
  event min(n: int): int { here { let s = 0; for i in 0 to n { s = s + min(i, 500); } } reply s; }
  event max(n: int): int { here { let s = 0; for i in 0 to n { s = s + max(i, 500); } } reply s; }
  event abs(n: int): int { here { let s = 0; for i in 0 to n { s = s + abs(500 - i); } } reply s; }
  event starts(n: int): int { here { let s = 0; for i in 0 to n { if starts(t, "-12") { s = s + 1; } } } reply s; }
  event num(n: int): int { here { let s = 0; for i in 0 to n { s = s + num(t); } } reply s; }
  event sum(n: int): int { here { let s = 0; for i in 0 to n { s = s + sum(m); } } reply s; }
}
----
END_OF_SERVICE
for what in min max abs starts num; do
    { cat "$folder/service"; echo 'request fill(20,"-123456")'; for _ in 1 2 3 4 5; do echo "request $what(94000)"; done; } >"$folder/$what"
done
for size in 20 1000; do
    { cat "$folder/service"; echo "request fill($size,\"\")"; for _ in 1 2 3 4 5; do echo "request sum($((94000 / size)))"; done; } >"$folder/sum-$size"
done

median() { sort -n | awk '{ all[NR] = $1 } END { print all[int((NR + 1) / 2)] }'; }
took() { local from to; from=$(date +%s%N); "$@" >"$folder/out" 2>/dev/null || true; to=$(date +%s%N); echo $(((to - from) / 1000)); }
printf '%14s %14s %14s %8s\n' input 'eventwave, ms' 'reference, ms' ratio
for input in min max abs starts num sum-20 sum-1000; do
    : >"$folder/ours"; : >"$folder/theirs"
    for _ in $(seq "$runs"); do
        took "$program" seq <"$folder/$input" >>"$folder/ours"; cp "$folder/out" "$folder/first"
        took "$reference" seq <"$folder/$input" >>"$folder/theirs"
        cmp "$folder/first" "$folder/out"
    done
    awk -v n="$input" -v a="$(median <"$folder/ours")" -v b="$(median <"$folder/theirs")" 'BEGIN { printf "%14s %14.2f %14.2f %8.2f\n", n, a / 1000, b / 1000, a / b }'
done
