#!/usr/bin/env bash
# bench/workers.sh [REFERENCE [RUNS]]: the program by turns with itself, and beside the reference's `seq`, in one run: the generated load of
# number 7 by `seq`, by `run --schedule 7` and by `run` with 1, 4 and 16 workers, and by the machine with as many workers (`load`, which writes
# a summary, since a script without loops is not shared by `run`); and eight halls with an event each of 100,000 ticks, with 1
# and with 4 workers. It prints the median times in milliseconds and the peak memory in KiB. All but `load` have to write the same bytes.
set -eu
cd "$(dirname "$0")/.."
named=${1:-} runs=${2:-9}
. bench/reference.sh
folder=$(mktemp -d); trap 'rm -rf "$folder"' EXIT

"$program" gen 7 >"$folder/load"
cat >"$folder/halls" <<'END'
service Halls {
  context Hall[int] {
    var sum: int = 0;
    method spin(k: int): int {
      for i in 0 to k { sum = sum + i; }
      return sum;
    }
  }
  event spin(h: int, k: int): int {
    down Hall[h] { let s = spin(k); }
    reply s;
  }
}
----
END
for h in 1 2 3 4 5 6 7 8; do echo "request spin($h,99999)"; done >>"$folder/halls"

median() { sort -n | awk '{ all[NR] = $1 } END { print all[int((NR + 1) / 2)] }'; }
took() { local from to; from=$(date +%s%N); "$@" >"$folder/out" 2>/dev/null || true; to=$(date +%s%N); echo $(((to - from) / 1000)); }
peak() { /usr/bin/time -f %M "$@" 2>&1 >/dev/null | tail -1; }

# The ways an input is run, one a line: a name, and the words.
ways() {
    echo "reference $reference seq"
    echo "seq $program seq"
    [ "$1" = halls ] || echo "schedule-7 $program run --schedule 7"
    for n in $2; do echo "workers-$n $program run --workers $n"; done
    [ "$1" = halls ] || for n in $2; do echo "machine-$n $program load 7 --workers $n"; done
}

measure() {
    local input=$1 name words
    for _ in $(seq "$runs"); do
        while read -r name words; do
            # shellcheck disable=SC2086
            took $words <"$folder/$input" >>"$folder/$input-$name"
            [ -f "$folder/$input-first" ] || cp "$folder/out" "$folder/$input-first"
            case $name in machine-*) ;; *) cmp "$folder/$input-first" "$folder/out" ;; esac
        done < <(ways "$input" "$2")
    done
    while read -r name words; do
        # shellcheck disable=SC2086
        printf '%8s %12s %12.2f %12d\n' "$input" "$name" "$(awk -v t="$(median <"$folder/$input-$name")" 'BEGIN { print t / 1000 }')" "$(peak $words <"$folder/$input")"
    done < <(ways "$input" "$2")
}

printf '%8s %12s %12s %12s\n' input way 'time, ms' 'peak, KiB'
measure load "1 4 16"
measure halls "1 4"
