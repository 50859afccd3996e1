#!/usr/bin/env bash
# bench/policies.sh [POLICIES [CONTEXTS [RUNS]]]: a script with so many policy lines (600) over a tree of so many contexts (300), by `seq` and by `run`; and the
# script without them, in which the moves that they made stand as `move` lines, each batch as before. It prints the median times in milliseconds and the
# quotient of the two. Policies by turns balance a load that leans to host 0 and drain a host; moves and requests are 4,000 lines at most.
set -eu
cd "$(dirname "$0")/.."
policies=${1:-600} contexts=${2:-300} runs=${3:-5} own=''
. bench/reference.sh
folder=$(mktemp -d); trap 'rm -rf "$folder"' EXIT
median() { sort -n | awk '{ all[NR] = $1 } END { print all[int((NR + 1) / 2)] }'; }
took() { local from to; from=$(date +%s%N); "$@" >"$folder/out"; to=$(date +%s%N); echo $(((to - from) / 1000)); }
service='service Town {
  context House[int] { var rooms: int = 1; method build() { rooms = rooms + 1; } }
  event build(a: int, b: int) { here { for i in a to b { House[i].build(); } } }
  event add(i: int) { down House[i] { rooms = rooms + 1; } }
}
----
hosts 4'
{ echo "$service"
    for ((i = 0; i < contexts; i += 200)); do echo "request build($i, $((i + 200 < contexts ? i + 200 : contexts)))"; done
    for ((i = 0; i < policies; i++)); do
        echo settle
        if ((i % 100 == 99)); then echo "drain $((i / 100 % 4)) to $(((i / 100 + 1) % 4))"; else echo 'balance by 1'; fi
        echo "request add($((i * 7 % contexts)))"
    done; } >"$folder/policies"
# The same with what each policy moved: a policy's moves are the `moved` lines in front of the next event's line.
"$program" seq <"$folder/policies" >"$folder/listing"
awk 'FNR == NR { if ($2 == "moved") moves = moves "move " $3 " to " $5 "\n"; else if ($1 ~ /^#/ && $2 == "add") { all[++n] = moves; moves = "" } next }
    /^(balance|drain) / { printf "%s", all[++at]; if (all[at] != "") print "settle"; next } { print }' "$folder/listing" "$folder/policies" >"$folder/moves"
"$program" seq <"$folder/moves" | cmp - "$folder/listing"
echo "$(grep -c moved "$folder/listing") moves by $policies policies over $contexts contexts"
for words in seq 'run --workers 1' 'run --workers 4'; do
    : >"$folder/with"; : >"$folder/without"
    for _ in $(seq "$runs"); do
        # shellcheck disable=SC2086
        took "$program" $words <"$folder/policies" >>"$folder/with"
        # shellcheck disable=SC2086
        took "$program" $words <"$folder/moves" >>"$folder/without"
    done
    awk -v w="$words" -v a="$(median <"$folder/with")" -v b="$(median <"$folder/without")" 'BEGIN { printf "%-16s %10.1f ms with policies %10.1f ms with their moves %6.2f\n", w, a / 1000, b / 1000, a / b }'
done
