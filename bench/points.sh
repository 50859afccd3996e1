#!/usr/bin/env bash
# bench/points.sh [CONTEXTS [RUNS]]: a script that makes so many contexts (10,000) by `run`; the same by `save`; and `resume` of that checkpoint with one
# event behind it. It prints the median times in milliseconds, by what `save` and `resume` take longer than `run`, and the sizes of the two texts.
set -eu
cd "$(dirname "$0")/.."
contexts=${1:-10000} runs=${2:-7} own=''
. bench/reference.sh
folder=$(mktemp -d); trap 'rm -rf "$folder"' EXIT
median() { sort -n | awk '{ all[NR] = $1 } END { print all[int((NR + 1) / 2)] }'; }
took() { local from to; from=$(date +%s%N); "$@" >"$folder/out"; to=$(date +%s%N); echo $(((to - from) / 1000)); }
service='service Town {
  var homes: int = 0;
  context House[int] { var rooms: int = 1; var name: text = "house"; method build() { rooms = rooms + 1; } }
  event build(a: int, b: int) { here { homes = homes + b - a; for i in a to b { House[i].build(); } } }
  event look(): int { reply homes; }
}
----'
{ echo "$service"; for ((i = 0; i < contexts; i += 200)); do echo "request build($i, $((i + 200 < contexts ? i + 200 : contexts)))"; done; } >"$folder/first"
"$program" save <"$folder/first" >"$folder/point"
{ echo "$service"; cat "$folder/point"; echo ----; echo 'request look()'; } >"$folder/second"
[ "$("$program" resume <"$folder/second" | sed -n 's/.*look = //p')" = "$contexts" ] || { echo "the checkpoint lost contexts"; exit 1; }
for _ in $(seq "$runs"); do
    took "$program" run --workers 1 <"$folder/first" >>"$folder/run"
    took "$program" save --workers 1 <"$folder/first" >>"$folder/save"
    took "$program" resume --workers 1 <"$folder/second" >>"$folder/resume"
done
run=$(median <"$folder/run")
for way in run save resume; do
    awk -v w="$way" -v t="$(median <"$folder/$way")" -v r="$run" 'BEGIN { printf "%8s %10.2f ms %8.2f of run\n", w, t / 1000, t / r }'
done
echo "the checkpoint has $(wc -c <"$folder/point") bytes and $(grep -c '^at ' "$folder/point") contexts"
