"""Runs of a program, and what is asked of how they end: for .ci/hostile."""
import os
import signal
import subprocess
import sys
import tempfile
import threading

PATIENCE = 20   # seconds for one run: whoever takes longer hangs
PROGRAM = os.path.abspath(sys.argv[1])
REFERENCE = os.path.abspath(sys.argv[-1])


class Ran:
    """How a run ended: its status (less than 0: the signal that ended it), bytes, note, and the most memory that it held."""

    def __init__(self, status, out, note, held):
        self.status, self.out, self.note, self.held = status, out, note.decode("utf-8", "replace").rstrip("\n"), held

    def __str__(self):
        how = signal.Signals(-self.status).name if self.status < 0 else f"status {self.status}"
        return f"{how}, note {self.note[:60]!r}, {len(self.out)} bytes"


# ---- runs

def start(words, stdin, stdout=subprocess.PIPE, stderr=subprocess.PIPE, before=None, program=None, **more):
    """Begins a run; `before` is shell text that goes before it, as `ulimit -v 20000;`."""
    command = [program or PROGRAM, *words]
    if before is not None:
        command = ["bash", "-c", before + ' exec "$@"', "bash", *command]
    return subprocess.Popen(command, stdin=stdin, stdout=stdout, stderr=stderr, **more)


def collect(child, take=lambda pipe: pipe.read()):
    """Takes all that a run writes, and waits for its end."""
    late = threading.Timer(PATIENCE, os.kill, (child.pid, signal.SIGKILL))
    late.start()
    told = {}
    noted = threading.Thread(target=lambda: told.update(note=child.stderr.read() if child.stderr else b""))
    noted.start()
    out = take(child.stdout) if child.stdout else b""
    noted.join()
    _, status, used = os.wait4(child.pid, 0)
    child.returncode = os.waitstatus_to_exitcode(status)
    hung = not late.is_alive()
    late.cancel()
    for pipe in (child.stdout, child.stderr):
        if pipe:
            pipe.close()
    note = b"HANGS: stopped after %d seconds" % PATIENCE if hung else told["note"]
    return Ran(child.returncode, out, note, used.ru_maxrss * 1024)


def run(words, data=b"", **more):
    """A run on these bytes, which stand in a file."""
    with tempfile.TemporaryFile() as file:
        file.write(data)
        file.seek(0)
        return collect(start(words, file, **more))


def feed(child, pieces):
    """Writes pieces to a run until it takes no more; gives how many bytes it took, at most."""
    taken = 0
    try:
        for piece in pieces:
            child.stdin.write(piece)
            child.stdin.flush()
            taken += len(piece)
    except BrokenPipeError:
        pass
    try:
        child.stdin.close()
    except BrokenPipeError:
        pass
    return taken


def run_fed(words, pieces, **more):
    """A run whose input comes in pieces through a pipe, and how many bytes went there."""
    child = start(words, subprocess.PIPE, **more)
    fed = {}
    feeder = threading.Thread(target=lambda: fed.update(taken=feed(child, pieces)))
    feeder.start()
    ran = collect(child)
    feeder.join()
    return ran, fed["taken"]


KNOWN = {}


def due(words, data):
    """How this run ends where nobody is in its way."""
    key = (tuple(words), data)
    if key not in KNOWN:
        KNOWN[key] = run(words, data, program=REFERENCE, env={**os.environ, "STAGE": "15"})
    return KNOWN[key]


# ---- what is asked of a run: each gives the complaints, of which there are none where it is as it has to be

def ends(ran, status, note, out):
    right = (ran.status, ran.note, ran.out) == (status, note, out)
    return [] if right else [f"{ran}; due were status {status}, note {note!r}, {len(out)} bytes{differ(ran.out, out)}"]


def differ(out, wanted):
    if out == wanted:
        return ""
    at = next((i for i, (a, b) in enumerate(zip(out, wanted)) if a != b), min(len(out), len(wanted)))
    return f", other from byte {at} on: {out[at:at + 30]!r}, not {wanted[at:at + 30]!r}"


def ends_as_due(ran, words, data):
    wanted = due(words, data)
    return ends(ran, wanted.status, wanted.note, wanted.out)


def is_front(ran, out):
    return [] if out.startswith(ran.out) else [f"{ran}: no front of what is due{differ(ran.out, out)}"]


def either(*lists):
    """One of several ends is right."""
    return [] if any(not wrong for wrong in lists) else [" / ".join(wrong[0] for wrong in lists)]


def fails(ran, status, note, out=b""):
    """It ended so, after a front of these bytes."""
    right = (ran.status, ran.note) == (status, note)
    return ([] if right else [f"{ran}; due were status {status}, note {note!r}"]) + is_front(ran, out)
