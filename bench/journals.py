#!/usr/bin/env python3
"""bench/journals.py [COUNT [LINES]]: journals of generated loads and of scripts made of them with moves, snapshots and ends of batches, COUNT of them (500) with
LINES lines each (12), by 1 to 16 workers and by schedules. Each has to be replayed as a finished run; and with one label changed, dropped, doubled or swapped
with the next it has to be judged as another program judges it that does the same, where there is one (`reference` in the folder EVENTWAVE_REFERENCE, else
../shared/tools): without one, what is judged is only counted. The program is the built one, or that of PROGRAM; it ends with 1 where a journal is judged
otherwise, and prints what to look at."""
import collections
import os
import pathlib
import random
import re
import subprocess
import sys

HERE = pathlib.Path(__file__).resolve().parent
PROGRAM = os.environ.get("PROGRAM", str(HERE.parent / "crates/eventwave_program/out/eventwave_program"))
OTHER = pathlib.Path(os.environ.get("EVENTWAVE_REFERENCE", HERE.parent.parent / "shared/tools")) / "reference"
STAGE = os.environ.get("STAGE", "20")


def ran(program, words, text):
    done = subprocess.run([program, *words], input=text.encode(), stdout=subprocess.PIPE, stderr=subprocess.PIPE, check=False, env={**os.environ, "STAGE": STAGE})
    return done.returncode, done.stdout, done.stderr


def load(seed, lines):
    text = subprocess.run([sys.executable, HERE / "load.py", str(seed), str(lines)], stdout=subprocess.PIPE, check=True).stdout.decode()
    service, script = text.split("----\n")
    return service + "----\n", script.splitlines(keepends=True)


def varied(draw, script):
    """The script, with moves, snapshots and ends of batches among its lines; a quarter stay as they are."""
    if draw.random() < 0.25:
        return script
    paths = sorted(set(re.findall(r"move (\S+) to", "".join(script)))) + ["/"]
    made = []
    for line in script:
        made.append(line)
        if not line.startswith("hosts") and draw.random() < 0.4:
            made.append(draw.choice((f"move {draw.choice(paths)} to {draw.randrange(2)}\n", "snapshot\n", "settle\n")))
    return made


def changed(draw, label):
    """Another label of the same form: another worker, host, ticket, act, number or place."""
    worker, host, act, rest = re.fullmatch(r"w(\d+) h(\d+) (\S+) ?(.*)", label).groups()
    way = draw.randrange(4)
    if way == 0:
        worker = draw.randrange(17)
    elif way == 1:
        host = draw.randrange(8)
    elif way == 2:
        act = draw.choice(("Admit", "Queue", "Grant", "Start", "Stop", "Commit", "Free", "Pass"))
    else:
        rest = re.sub(r"\d+", lambda m: str(draw.choice((1, int(m.group()) + 1))), rest, count=1)
    return f"w{worker} h{host} {act} {rest}".rstrip()


def mutated(draw, journal):
    """The journal with one label changed, dropped, doubled or swapped with the one behind it, its lines numbered anew; and which of these it is."""
    labels = [line.split(" ", 1)[1] for line in journal.splitlines()[1:]]
    at, way = draw.randrange(len(labels)), draw.choice(("changed", "dropped", "doubled", "swapped"))
    if way == "changed":
        labels[at] = changed(draw, labels[at])
    elif way == "dropped":
        del labels[at]
    elif way == "doubled":
        labels.insert(at, labels[at])
    else:
        labels[at:at + 2] = reversed(labels[at:at + 2])
    return way, f"journal {len(labels)}\n" + "".join(f"{i} {label}\n" for i, label in enumerate(labels, 1))


def crew(draw):
    workers = ["--workers", str(draw.randint(1, 16))]
    schedule = draw.choice(([], [], ["--schedule", draw.choice(("oldest", "newest", "movers", "maillast", str(draw.randrange(1000))))]))
    return workers, [*workers, *schedule]


def judged(seed, lines, counts):
    draw = random.Random(seed)
    service, script = load(seed, lines)
    text = service + "".join(varied(draw, script))
    workers, words = crew(draw)
    status, told, note = ran(PROGRAM, ["trace", *words], text)
    if status not in (0, 1):
        return f"trace {' '.join(words)}: {status} {note.decode().strip()}"
    journal = told.decode()[told.decode().index("journal "):]
    count = int(journal.split(maxsplit=2)[1])
    status, told, note = ran(PROGRAM, ["replay", "0", *workers], f"{text}----\n{journal}")
    if status != 0 or not re.search(rb"^run %d finished$" % count, told, re.M):
        return f"trace {' '.join(words)}: its journal is no finished run"
    counts["finished"] += 1
    for _ in range(4):
        way, other = mutated(draw, journal)
        ask = ["replay", str(draw.randint(0, count + 1)), *workers]
        got = ran(PROGRAM, ask, f"{text}----\n{other}")
        if OTHER.is_file() and got != ran(OTHER, ask, f"{text}----\n{other}"):
            return f"{' '.join(ask)}, one label {way}: judged otherwise"
        counts[way, {0: "a run", 10: "no journal", 11: "refused"}.get(got[0], "lost")] += 1
    return ""


def main():
    count, lines = (int(word) for word in (sys.argv[1:] + ["500", "12"][len(sys.argv) - 1:]))
    wrong, counts = 0, collections.Counter()
    for seed in range(count):
        found = judged(seed, lines, counts)
        if found:
            wrong += 1
            print(f"load.py {seed} {lines}: {found}")
    lost = sum(n for key, n in counts.items() if key[1] == "lost")
    print(f"{counts.pop('finished', 0)} of {count} journals are finished runs; {wrong} are judged otherwise{'' if OTHER.is_file() else ' (no other program was asked)'}")
    for (way, verdict), n in sorted(counts.items()):
        print(f"one label {way}: {n} {verdict}")
    return 1 if wrong or lost else 0


sys.exit(main())
