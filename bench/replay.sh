#!/usr/bin/env bash
# bench/replay.sh [COPIES [RUNS]]: journals of the generated load of 2,300 lines and of COPIES as many lines with 341 events each (8), replayed by as many
# workers. It prints how many labels each has, the median time, the nanoseconds a label and the peak memory; all have to be finished runs.
set -eu
cd "$(dirname "$0")/.."
copies=${1:-8} runs=${2:-5} own=''
. bench/reference.sh
folder=$(mktemp -d); trap 'rm -rf "$folder"' EXIT
median() { sort -n | awk '{ all[NR] = $1 } END { print all[int((NR + 1) / 2)] }'; }
deep='service Deep {
  var n: int = 0;
  event e0() { here { n = n + 1; spawn e1(); spawn e1(); spawn e1(); spawn e1(); } }
  event e1() { here { n = n + 1; spawn e2(); spawn e2(); spawn e2(); spawn e2(); } }
  event e2() { here { n = n + 1; spawn e3(); spawn e3(); spawn e3(); spawn e3(); } }
  event e3() { here { n = n + 1; spawn e4(); spawn e4(); spawn e4(); spawn e4(); } }
  event e4() { here { n = n + 1; } }
}
----'
"$program" gen 7 >"$folder/load"
{ echo "$deep"; for ((i = 0; i < copies * 50; i++)); do echo 'request e0()'; done; } >"$folder/deep"
printf '%6s %8s %10s %12s %14s %10s\n' input workers labels 'time, ms' 'ns a label' 'peak, MB'
for input in load deep; do
    for workers in 1 4; do
        { cat "$folder/$input"; echo ----; "$program" trace --workers "$workers" <"$folder/$input" | sed -n '/^journal /,$p'; } >"$folder/text"
        labels=$(sed -n 's/^journal //p' "$folder/text")
        : >"$folder/times"
        for _ in $(seq "$runs"); do
            from=$(date +%s%N)
            "$program" replay 1 --workers "$workers" <"$folder/text" >"$folder/out"
            to=$(date +%s%N)
            echo $(((to - from) / 1000)) >>"$folder/times"
            [ "$(head -n 1 "$folder/out")" = "run $labels finished" ] || { echo "$input by $workers workers is no finished run"; exit 1; }
        done
        peak=$(/usr/bin/time -f %M "$program" replay 1 --workers "$workers" <"$folder/text" 2>&1 >/dev/null | tail -n 1)
        awk -v i="$input" -v w="$workers" -v l="$labels" -v t="$(median <"$folder/times")" -v p="${peak:-0}" 'BEGIN { printf "%6s %8d %10d %12.1f %14.0f %10.1f\n", i, w, l, t / 1000, t * 1000 / l, p / 1024 }'
    done
done
