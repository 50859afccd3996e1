#!/usr/bin/env python3
"""bench/stress.py [MINUTES [SECONDS]]: the built program, or that of PROGRAM, by 4 and by 16 workers on generated loads and on events that take long,
on 1, 2 and 4 processors by turns, for so many minutes (1). Each run has so many seconds (20), and has to write what `seq` writes. It prints how
many runs there were, how many did not end and how many wrote something else, and ends with 1 where there was one: no clause says that a worker
wakes, so this is how a call that is lost would show."""
import os
import subprocess
import sys
import time

HALLS = b"""service Halls {
  context Hall[int] {
    var sum: int = 0;
    method spin(k: int): int { for i in 0 to k { sum = sum + i; } return sum; }
  }
  event spin(h: int, k: int): int { down Hall[h] { let s = spin(k); } reply s; }
}
----
"""


def inputs(program):
    """Loads of some numbers; short events with a long one among them; and a batch after each."""
    loads = [subprocess.run([program, "gen", str(n)], capture_output=True, check=True).stdout for n in (1, 7, 23)]
    mixed = b"".join(b"request spin(%d,%d)\n" % (i % 9 + 1, 20000 if i % 40 == 0 else 3) for i in range(400))
    batches = b"".join(b"request spin(%d,%d)\nsettle\n" % (i % 3 + 1, i) for i in range(200))
    return loads + [HALLS + mixed, HALLS + batches]


def pinned(processors):
    free = sorted(os.sched_getaffinity(0))
    return lambda: os.sched_setaffinity(0, free[:processors])


def main():
    if len(sys.argv) > 3:
        sys.exit(__doc__)
    minutes, seconds = (float(x) for x in (sys.argv[1:] + ["1", "20"][len(sys.argv) - 1:]))
    program = os.environ.get("PROGRAM", "crates/eventwave_program/out/eventwave_program")
    cases = [(data, subprocess.run([program, "seq"], input=data, capture_output=True, check=True).stdout) for data in inputs(program)]
    runs = hung = other = 0
    end = time.monotonic() + 60 * minutes
    while time.monotonic() < end:
        for processors in (1, 2, 4):
            for workers in ("4", "16"):
                for number, (data, due) in enumerate(cases):
                    runs += 1
                    words = [program, "run", "--workers", workers]
                    try:
                        out = subprocess.run(words, input=data, capture_output=True, timeout=seconds, preexec_fn=pinned(processors)).stdout
                    except subprocess.TimeoutExpired:
                        hung += 1
                        print(f"input {number} by {workers} workers on {processors} processors did not end in {seconds:g} s", flush=True)
                        continue
                    if out != due:
                        other += 1
                        print(f"input {number} by {workers} workers on {processors} processors wrote something else", flush=True)
    print(f"{runs} runs, {hung} that did not end, {other} that wrote something else")
    sys.exit(1 if hung or other else 0)


main()
