#!/usr/bin/env python3
"""bench/halves.py [COUNT [LINES]]: cuts generated loads where a batch ends, COUNT of them (1,000) with LINES lines each (60). `save` of the first half by 1, 4
or 16 workers, and `resume` of the second by 1, 4 and 16 workers and by schedules, have to write what one `run` of both writes behind the lines of the first.
The program is the built one, or that of PROGRAM; it ends with 1 where a pair differs, and prints what to look at."""
import os
import pathlib
import random
import re
import subprocess
import sys

HERE = pathlib.Path(__file__).resolve().parent
PROGRAM = os.environ.get("PROGRAM", str(HERE.parent / "crates/eventwave_program/out/eventwave_program"))
WAYS = ([], ["--workers", "1"], ["--workers", "16"], ["--schedule", "7"], ["--schedule", "movers", "--workers", "2"])


def ran(words, text):
    done = subprocess.run([PROGRAM, *words], input=text.encode(), stdout=subprocess.PIPE, stderr=subprocess.PIPE, check=False)
    return done.returncode, done.stdout.decode()


def load(seed, lines):
    text = subprocess.run([sys.executable, HERE / "load.py", str(seed), str(lines)], stdout=subprocess.PIPE, check=True).stdout.decode()
    service, script = text.split("----\n")
    return service + "----\n", script.splitlines(keepends=True)


def differs(seed, lines):
    service, script = load(seed, lines)
    ends = [i for i, line in enumerate(script) if line == "settle\n"]
    if not ends:
        return None
    draw = random.Random(seed)
    at = draw.choice(ends)
    first, second = "".join(script[:at]), "".join(script[at + 1:])
    status, whole = ran(["run", "--map"], service + "".join(script))
    _, listed = ran(["run"], service + first)
    lines_of_first = listed[:listed.rindex("done ")]
    if not whole.startswith(lines_of_first):
        return "the first half"
    _, point = ran(["save", "--workers", str(draw.choice((1, 4, 16)))], service + first)
    for way in WAYS:
        ended, rest = ran(["resume", "--map", *way], service + point + "----\n" + second)
        if lines_of_first + rest != whole or ended != (1 if re.search(r"^#\d+ \S+ trap ", rest, re.M) else 0):
            return f"resume {' '.join(way)}"
    return ""


def main():
    count, lines = (int(word) for word in (sys.argv[1:] + ["1000", "60"][len(sys.argv) - 1:]))
    cut = wrong = 0
    for seed in range(count):
        found = differs(seed, lines)
        cut += found is not None
        if found:
            wrong += 1
            print(f"load.py {seed} {lines}: {found}")
    print(f"{cut} of {count} scripts have a batch's end and were cut; {wrong} differ")
    return 1 if wrong or not cut else 0


sys.exit(main())
