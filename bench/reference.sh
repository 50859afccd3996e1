# bench/reference.sh: read by the other scripts. It sets `reference`, what is timed beside: what they name as `named`, or that in the folder
# EVENTWAVE_REFERENCE (../shared/tools); where there is none the program itself stands in its place, and a line says so. And it sets `program`, the
# built one or that of PROGRAM; but where `own` is set the script has a program of its own.
# shellcheck shell=bash
program=crates/eventwave_program/out/eventwave_program
[ -n "${own:-}" ] || program=${PROGRAM:-$program}
reference=${named:-${EVENTWAVE_REFERENCE:-../shared/tools}/reference}
if [ ! -x "$reference" ]; then
    echo "skipped: no reference at $reference; the program itself stands in its place" >&2
    reference=$program own=''
fi
[ -n "${own:-}" ] || [ -x "$program" ] || ./eventwave --proved check <examples/counter.wave >/dev/null
reference=$(realpath "$reference")
