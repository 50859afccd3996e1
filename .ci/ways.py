"""A case by each way: runs of a program on a service and a script, and what is asked of how they end. For .ci/sizes, whose words it reads."""
import concurrent.futures
import os
import re
import subprocess
import sys
import tempfile
import threading
import time

PROGRAM = os.path.abspath(sys.argv[1])
PATIENCE = float(os.environ.get("PATIENCE", "60"))   # seconds for one call: whoever takes longer hangs
WORKERS = ("1", "4", "16")
SCHEDULES = ("newest", "oldest", "movers", "maillast", "7")
RUNS = [["seq"]] + [["run", "--workers", n] for n in WORKERS] + [["run", "--schedule", rule] for rule in SCHEDULES]
TRACES = [["trace", "--workers", n] for n in WORKERS] + [["trace", "--schedule", rule] for rule in SCHEDULES]
LEAST, MOST = -2 ** 63, 2 ** 63 - 1

kept = []   # the folder of inputs that were answered otherwise, once there is one
calls = 0
lock = threading.Lock()


# ---- calls, and what is asked of how they end: each gives the complaints, of which there are none where it is as it has to be

def call(words, text):
    """How a run on these bytes ends: status, note, bytes."""
    global calls
    with lock:
        calls += 1
    try:
        ran = subprocess.run([PROGRAM, *words], input=text.encode(), stdout=subprocess.PIPE, stderr=subprocess.PIPE, timeout=PATIENCE, check=False)
    except subprocess.TimeoutExpired:
        return None, f"HANGS: stopped after {PATIENCE:.0f} seconds", ""
    return ran.returncode, ran.stderr.decode("utf-8", "replace").rstrip("\n"), ran.stdout.decode("utf-8", "replace")


def told(shows, words, text, why):
    """A complaint on one line; the input is kept."""
    with lock:
        if not kept:
            kept.append(tempfile.mkdtemp(prefix="sizes."))
        path = os.path.join(kept[0], f"{len(os.listdir(kept[0])) + 1}.in")
        with open(path, "w", encoding="utf-8", newline="") as file:
            file.write(text)
    return [f"{shows}: {' '.join(words)} < {path}: {why}"]


def differ(out, due):
    got, due = out.splitlines(), due.splitlines()
    at = next((i for i, (a, b) in enumerate(zip(got, due)) if a != b), min(len(got), len(due)))
    return f"line {at + 1} is {(got[at:at + 1] or ['none'])[0][:90]!r}, due is {(due[at:at + 1] or ['none'])[0][:90]!r}"


def ends(shows, words, text, status, note, out):
    ran = call(words, text)
    if ran == (status, note, out):
        return []
    why = f"status {ran[0]}, note {ran[1][:80]!r}, {len(ran[2])} bytes; due are {status}, {note!r}, {len(out)}"
    return told(shows, words, text, why + ("" if ran[2] == out else "; " + differ(ran[2], out)))


def refused(shows, text, note, status=3, ways=(["check"],)):
    """Tasks: the text is refused by each way. A service alone gets an empty script."""
    text += "" if "\n----\n" in text else "----\n"
    for words in ways:
        yield lambda words=words: ends(shows, words, text, status, note, "")


# ---- cases

def lines(*parts):
    return "".join(part + "\n" for part in parts)


def batches(script):
    """A script cut into batches of 400 lines, for what is no matter of how many events are under way."""
    return [line for i, asked in enumerate(script) for line in ([asked, "settle"] if i % 400 == 399 else [asked])]


class Case:
    """A service, what is asked of it in a first batch and behind it, and what is due: the listing without its last line, the places of contexts at the end,
    how many tickets the first batch has, and all tickets."""

    def __init__(self, shows, service, first, second, listing, half, tickets, places=None):
        self.shows, self.service, self.first, self.second, self.places = shows, service, list(first), list(second), places
        self.listing, self.half, self.tickets = listing, half, tickets
        self.text = service + "----\n" + lines(*self.first, "settle", *self.second)

    def due(self, behind=0, until=None, places=True):
        """Status and listing of the tickets behind so many, up to another one, with the places at the end if they are known."""
        own = [line for line in self.listing if behind < int(line[1:line.index(" ")]) <= (self.tickets if until is None else until)]
        status = int(any(re.match(r"#\d+ \w+ trap ", line) for line in own))
        return status, lines(*own, *(self.places or [] if places else []), f"done {self.tickets}")

    def map(self):
        return [] if self.places is None else ["--map"]


def everywhere(case, runs=RUNS, traces=(["trace", "--workers", "4"],), resumes=True):
    """Tasks: the case by each way."""
    status, out = case.due()
    for words in runs:
        yield lambda words=words + case.map(): ends(case.shows, words, case.text, status, "", out)
    for words in traces:
        yield lambda words=words: traced(case, words)
    if resumes:
        yield lambda: goes_on(case)


def journal_of(case, words):
    """The journal of a run, and the complaints on what stands before it."""
    status, note, out = call(words, case.text)
    due, listing = case.due(places=False)
    if (status, note) != (due, "") or not out.startswith(listing + "journal "):
        return None, told(case.shows, words, case.text, f"status {status}, note {note!r}; due is {due}; {differ(out, listing)}")
    return out[len(listing):], []


def traced(case, words):
    """A run whose listing stands before its journal."""
    journal, wrong = journal_of(case, words)
    return wrong or replays(case, words, journal)


def replays(case, words, journal):
    """A journal that has all tickets in their order is replayed as a finished run of so many workers, and leads where it has to."""
    wrong, crew, steps = [], words[1:] if words[1:2] == ["--workers"] else [], journal.splitlines()[1:]
    text, count = case.text + "----\n" + journal, len(steps)
    for act in ("Admit", "Commit"):
        tickets = re.findall(rf"^\d+ w\d+ h\d+ {act} #(\d+)$", journal, re.M)
        if tickets != [str(ticket + 1) for ticket in range(case.tickets)]:
            wrong += told(case.shows, words, case.text, f"the journal has {len(tickets)} times {act}, of {case.tickets} tickets, or in another order")
    begins = lines(f"run {count} finished", "step 0 admitted 0 committed 0", "owner / 0")
    wrong += ends(case.shows, ["replay", "0", *crew], text, 0, "", begins)
    if case.places is not None:
        owners = ["owner" + place_[5:] for place_ in case.places]
        out = lines(f"run {count} finished", f"step {count} admitted {case.tickets} committed {case.tickets}", *owners)
        wrong += ends(case.shows, ["replay", str(MOST), *crew], text, 0, "", out)
    return wrong + stands(case, crew, text, steps)


def stands(case, crew, text, steps):
    """In the middle of a journal so many tickets are admitted and committed, and the contexts that were entered have their owners."""
    half = len(steps) // 2
    words, front = ["replay", str(half), *crew], [step.split(" ") for step in steps[:half]]
    counts = [sum(step[3] == act for step in front) for act in ("Admit", "Commit")]
    born = {"/"} | {step[5] for step in front if step[3] == "Queue"}
    status, note, out = call(words, text)
    lines_ = out.splitlines()
    owners = [line.split(" ")[1] for line in lines_[2:]]
    if (status, note, len(owners), set(owners)) != (0, "", len(born), born) or lines_[:2] != [
            f"run {len(steps)} finished", f"step {half} admitted {counts[0]} committed {counts[1]}"]:
        return told(case.shows, words, text, f"status {status}, note {note!r}, {lines_[:2]}, {len(owners)} owners; due are {counts} and {len(born)}")
    return []


def goes_on(case):
    """What is saved of the first batch and resumed with the second is what one run has behind the first."""
    text, (status, _) = case.service + "----\n" + lines(*case.first), case.due(until=case.half)
    _, _, point = call(["save"], text)
    asked = len(re.findall(r"^(?:request|move|snapshot)\b", lines(*case.first), re.M))
    head = re.match(r"checkpoint 1\nhosts (\d) lines (\d+) next (\d+)\n", point)
    if not head or int(head[2]) != asked or int(head[3]) != case.half + 1 or not point.endswith("\nend\n"):
        return told(case.shows, ["save"], text, f"the checkpoint begins {point[:60]!r}; due are {asked} lines, and {case.half + 1} as next ticket")
    wrong = []
    for n in ("1", "16"):
        wrong += ends(case.shows, ["save", "--workers", n], text, status, "", point)
    text, (status, out) = case.service + "----\n" + point + "----\n" + lines(*case.second), case.due(case.half)
    for words in [["--workers", n] for n in WORKERS] + [["--schedule", rule] for rule in SCHEDULES]:
        wrong += ends(case.shows, ["resume", *words, *case.map()], text, status, "", out)
    return wrong


class Tree:
    """The contexts of a service by their paths, each with its fields and its host. A class is a name and its fields with their first values."""

    def __init__(self, classes, root):
        self.classes, self.numbers = classes, {name: i for i, name in enumerate(classes)}
        self.at, self.hosts = {(): dict(root)}, {(): 0}

    def enter(self, *path):
        for i in range(1, len(path) + 1):
            if path[:i] not in self.at:
                self.at[path[:i]] = dict(self.classes[path[i - 1][0]])
                self.hosts[path[:i]] = self.hosts[path[:i - 1]]
        return self.at[path]

    def paths(self):
        return sorted(self.at, key=lambda path: [(self.numbers[name], key) for name, key in path])

    def snapshot(self, ticket):
        return [f"#{ticket} snapshot {len(self.at)}"] + [f"#{ticket} at {written_path(path)}" + "".join(
            f" {name}={written(value)}" for name, value in self.at[path].items()) for path in self.paths()]

    def places(self):
        return [f"place {written_path(path)} {self.hosts[path]}" for path in self.paths()]


class Script:
    """What is asked of a service, line by line, with the answers, the tree that they lead to, and where the first batch ends."""

    def __init__(self, tree, hosts=1):
        self.tree, self.lines, self.listing = tree, [f"hosts {hosts}"] if hosts > 1 else [], []
        self.ticket = self.half = self.end = 0

    def ask(self, line, *answers):
        self.lines.append(line)
        self.ticket += 1
        self.listing += [f"#{self.ticket} {answer}" for answer in answers]

    def move(self, path, host):
        there, text = path in self.tree.at, written_path(path)
        if there:
            self.tree.hosts[path] = host
        self.ask(f"move {text} to {host}", f"moved {text} to {host}" if there else f"absent {text}")

    def snapshot(self):
        self.ask("snapshot")
        self.listing += self.tree.snapshot(self.ticket)

    def settle(self):
        self.half, self.end = self.ticket, len(self.lines)

    def case(self, shows, service):
        return Case(shows, service, self.lines[:self.end], self.lines[self.end:], self.listing, self.half, self.ticket, self.tree.places())


def written_path(path):
    return "".join(f"/{name}[{key}]" for name, key in path) or "/"


def written(value):
    if isinstance(value, bool):
        return "true" if value else "false"
    if isinstance(value, str):
        return '"' + value.replace("\\", "\\\\").replace('"', '\\"') + '"'
    if isinstance(value, dict):
        return "{" + ", ".join(f"{key}: {value[key]}" for key in sorted(value)) + "}"
    return str(value)


def place(text, piece, behind=""):
    """Line and column at which a piece begins, the first one behind some text."""
    at = text.index(piece, text.index(behind))
    return f"{text.count(chr(10), 0, at) + 1}:{at - text.rfind(chr(10), 0, at)}"


GROUPS = []


def group(shows):
    def add(function):
        GROUPS.append((shows, function))
        return function
    return add


# ---- all of them

def main(names):
    global calls
    wrong, began, all_calls = 0, time.time(), 0
    known = [function.__name__.rstrip("_") for _, function in GROUPS]
    for name in set(names) - set(known):
        sys.exit(f"no group {name}; there are {' '.join(known)}")
    with concurrent.futures.ThreadPoolExecutor(os.cpu_count()) as pool:
        for (shows, function), name in zip(GROUPS, known):
            if names and name not in names:
                continue
            at, calls = time.time(), 0
            faults = [fault for faults in pool.map(lambda task: task(), function()) for fault in faults]
            wrong += len(faults)
            all_calls += calls
            print(f"{'FAILED' if faults else 'ok'}: {name}: {shows} ({calls} calls, {time.time() - at:.1f} s)")
            for fault in faults:
                print(f"  {fault}")
            sys.stdout.flush()
    print(f"sizes: {all_calls} calls, {wrong} wrong, {time.time() - began:.0f} s")
    return 1 if wrong else 0
