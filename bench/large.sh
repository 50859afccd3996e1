#!/usr/bin/env bash
# bench/large.sh [REFERENCE [RUNS [LINES]]]: three large inputs by `seq` and by `run` with 1 worker, beside the reference's `seq`, by turns:
# a map of 1,000 pairs that 1,000 events read and write; a snapshot of 10,000 contexts; and so many lines (4,000) whose events create 341
# each. It prints the median times in milliseconds and the peak memory in KiB. All have to write the same bytes.
set -eu
cd "$(dirname "$0")/.."
named=${1:-} runs=${2:-3} lines=${3:-4000}
. bench/reference.sh
folder=$(mktemp -d); trap 'rm -rf "$folder"' EXIT

cat >"$folder/map" <<'END'
service Keys {
  var m: map = empty;
  event fill() { here { for i in 0 to 1000 { m[i * 7 % 1000] = i; } } }
  event bump(k: int): int {
    here { m[k] = m[k] + 1; let s = m[k] + size(m); }
    reply s;
  }
}
----
request fill()
END
for k in $(seq 0 999); do echo "request bump($k)"; done >>"$folder/map"
cat >"$folder/wide" <<'END'
service Wide {
  context Hall[int] {
    context Stall[int] {
      var stock: int = 10;
      method take(n: int): int { stock = stock - n; return stock; }
    }
    method fill(a: int): int { let s = 0; for i in a to a + 50 { s = s + Stall[i].take(1); } return s; }
  }
  event fill(h: int, a: int): int { down Hall[h] { let s = fill(a); } reply s; }
}
----
END
for h in $(seq 100); do for a in 0 50; do echo "request fill($h,$a)"; done; done >>"$folder/wide"
echo snapshot >>"$folder/wide"
cat >"$folder/spawns" <<'END'
service Grows {
  var count: int = 0;
  event grow(more: int) {
    here {
      count = count + 1;
      if more > 0 { for i in 0 to 4 { spawn grow(more - 1); } }
    }
  }
}
----
END
for _ in $(seq "$lines"); do echo 'request grow(4)'; done >>"$folder/spawns"

median() { sort -n | awk '{ all[NR] = $1 } END { print all[int((NR + 1) / 2)] }'; }
took() { local from to; from=$(date +%s%N); "$@" >"$folder/out" 2>/dev/null || true; to=$(date +%s%N); echo $(((to - from) / 1000)); }
peak() { /usr/bin/time -f %M "$@" 2>&1 >/dev/null | tail -1; }
ways() {
    echo "reference $reference seq"
    echo "seq $program seq"
    echo "workers-1 $program run --workers 1"
}

printf '%8s %12s %12s %12s\n' input way 'time, ms' 'peak, KiB'
for input in map wide spawns; do
    for _ in $(seq "$runs"); do
        while read -r name words; do
            # shellcheck disable=SC2086
            took $words <"$folder/$input" >>"$folder/$input-$name"
            [ -f "$folder/$input-first" ] || cp "$folder/out" "$folder/$input-first"
            cmp "$folder/$input-first" "$folder/out"
        done < <(ways)
    done
    while read -r name words; do
        # shellcheck disable=SC2086
        printf '%8s %12s %12.2f %12d\n' "$input" "$name" "$(awk -v t="$(median <"$folder/$input-$name")" 'BEGIN { print t / 1000 }')" "$(peak $words <"$folder/$input")"
    done < <(ways)
done
