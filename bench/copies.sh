#!/usr/bin/env bash
# bench/copies.sh [SALES [RUNS]]: sales in a hall of 64 texts of 1,000 bytes each, run by their code. An event that goes down from the hall to
# a stall keeps a copy of what code below may read: here of none of the texts, of one, or of all 64, and no sale comes to the place that reads
# them, so that the three run the same instructions. By turns in one run; it prints the medians of the nanoseconds a sale.
set -eu
cd "$(dirname "$0")/.."
sales=${1:-2000} runs=${2:-9}
# Where it is not built yet, or a source is newer, `rt run` proves and builds it.
(cd crates/bench_code; rt run <stdin >/dev/null 2>&1 || { rt run <stdin; exit 1; })
program=crates/bench_code/out/bench_code
folder=$(mktemp -d); trap 'rm -rf "$folder"' EXIT

median() { sort -n | awk '{ all[NR] = $1 } END { print all[int((NR + 1) / 2)] }'; }
# An input whose stalls read so many texts of their hall, and so many sales.
input() {
    local reads=$1 i
    printf 'service Market {\n  var seen: int = 0;\n  context Hall[int] {\n'
    for i in $(seq 0 63); do printf '    var t%s: text = "";\n' "$i"; done
    printf '    context Stall[int] {\n      var stock: int = 1000000;\n      method take(n: int): int {\n'
    printf '        if n > 1000 {\n          stock = 0;\n'
    for i in $(seq 0 $((reads - 1))); do printf '          stock = stock + len(Hall.t%s);\n' "$i"; done
    printf '        }\n'
    printf '        stock = stock - n;\n        return stock;\n      }\n    }\n  }\n'
    printf '  event fill(h: int) {\n    down Hall[h] {\n      let s = "";\n      for i in 0 to 100 { s = s + "0123456789"; }\n'
    for i in $(seq 0 63); do printf '      t%s = s;\n' "$i"; done
    printf '    }\n  }\n  event buy(h: int, s: int, n: int): int {\n    here { seen = seen + 1; }\n    down Hall[h] { }\n'
    printf '    down Stall[s] { let left = take(n); }\n    reply left;\n  }\n}\n----\nrequest fill(1)\n'
    for i in $(seq "$sales"); do echo 'request buy(1,1,1)'; done
}

for reads in 0 1 64; do
    input "$reads" >"$folder/$reads"
    [ "$("$program" <"$folder/$reads" | tail -1)" = "done $((sales + 1))" ] || { echo "the script of $sales sales does not run"; exit 1; }
done
for _ in $(seq "$runs"); do
    for reads in 0 1 64; do "$program" 1 <"$folder/$reads" >>"$folder/times$reads"; done
done
printf '%s sales, %s runs: nanoseconds a sale\n' "$sales" "$runs"
for reads in 0 1 64; do
    printf '%2s texts kept: %s\n' "$reads" "$(median <"$folder/times$reads" | awk -v n="$sales" '{ printf "%.0f", $1 / n }')"
done
