#!/usr/bin/env bash
# bench/maps.sh [code] [REFERENCE [RUNS]]: maps and texts beside the reference program's `seq`, by turns in one run: writes, reads, tests,
# walks by `key`, pairs taken out and put again, texts that grow, and snapshots, at 20 and at 1,000 pairs or bytes. It prints the median
# times in milliseconds with their ratio. PROGRAM in the environment stands for another built program.
# With the word `code` the script is run by the code of its service, which is timed alone: the start of the reference, timed with a script
# that only fills the map, is taken off its time.
set -eu
cd "$(dirname "$0")/.."
by=seq own=''; if [ "${1:-}" = code ]; then by=code own=1; shift; fi
named=${1:-} runs=${2:-7}
. bench/reference.sh
if [ $by = code ]; then
    # Where it is not built yet, or a source is newer, `rt run` proves and builds it.
    program=${PROGRAM:-crates/bench_code/out/bench_code}
    [ -n "${PROGRAM:-}" ] || (cd crates/bench_code; rt run <stdin >/dev/null 2>&1 || { rt run <stdin; exit 1; })
fi
folder=$(mktemp -d); trap 'rm -rf "$folder"' EXIT

cat >"$folder/service" <<'END_OF_SERVICE'
service Maps {
  var m: map = empty;
  event fill(n: int) { here { for i in 0 to n { m[i * 7 % n] = i; } } }
  event write(n: int, rounds: int) { here { for r in 0 to rounds { for i in 0 to n { m[i * 7 % n] = r; } } } }
  event read(n: int, rounds: int): int {
    here { let s = 0; for r in 0 to rounds { for i in 0 to n { s = s + m[i * 7 % n]; } } }
    reply s;
  }
  event test(n: int, rounds: int): int {
    here { let s = 0; for r in 0 to rounds { for i in 0 to n { if has(m, i * 2) { s = s + size(m); } } } }
    reply s;
  }
  event walk(n: int, rounds: int): int {
    here { let s = 0; for r in 0 to rounds { for i in 0 to size(m) { s = s + key(m, i); } } }
    reply s;
  }
  event again(n: int, rounds: int) {
    here { for r in 0 to rounds { for i in 0 to n { drop m[i * 7 % n]; m[i * 7 % n] = r; } } }
  }
  event grow(n: int, rounds: int): int {
    here { let s = ""; for r in 0 to rounds { s = ""; for i in 0 to n { s = s + "x"; } } }
    reply len(s);
  }
}
----
END_OF_SERVICE
for size in 20 1000; do
    for what in write read test walk again grow; do
        { cat "$folder/service"; echo "request fill($size)"; for _ in 1 2 3 4 5; do echo "request $what($size,$((94000 / size)))"; done; } >"$folder/$what-$size"
    done
    { cat "$folder/service"; echo "request fill($size)"; for _ in $(seq $((40000 / size > 2000 ? 2000 : 40000 / size))); do echo snapshot; done; } >"$folder/snapshot-$size"
done

for size in 20 1000; do { cat "$folder/service"; echo "request fill($size)"; } >"$folder/start-$size"; done

median() { sort -n | awk '{ all[NR] = $1 } END { print all[int((NR + 1) / 2)] }'; }
# The microseconds of a command, whose output is kept.
took() { local from to; from=$(date +%s%N); "$@" >"$folder/out" 2>/dev/null || true; to=$(date +%s%N); echo $(((to - from) / 1000)); }
# The microseconds of an input, by us and by the reference.
ours() { if [ $by = code ]; then echo $(($("$program" 1 <"$folder/$1") / 1000)); else took "$program" seq <"$folder/$1"; fi; }
theirs() {
    local whole start=0; whole=$(took "$reference" seq <"$folder/$1")
    if [ $by = code ]; then start=$(took "$reference" seq <"$folder/start-${1#*-}"); fi
    echo $((whole - start))
}
# What both say of it must be the same.
listing() { if [ $by = code ]; then "$program" <"$1"; else "$program" seq <"$1"; fi; }
printf '%14s %14s %14s %8s\n' input 'eventwave, ms' 'reference, ms' ratio
for what in write read test walk again grow snapshot; do
    for size in 20 1000; do
        listing "$folder/$what-$size" >"$folder/first"; "$reference" seq <"$folder/$what-$size" >"$folder/out"
        cmp "$folder/first" "$folder/out"
        : >"$folder/ours"; : >"$folder/theirs"
        for _ in $(seq "$runs"); do ours "$what-$size" >>"$folder/ours"; theirs "$what-$size" >>"$folder/theirs"; done
        awk -v n="$what-$size" -v a="$(median <"$folder/ours")" -v b="$(median <"$folder/theirs")" 'BEGIN { printf "%14s %14.2f %14.2f %8.2f\n", n, a / 1000, b / 1000, a / b }'
    done
done
