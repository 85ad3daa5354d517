"""Runs a command under valgrind's lackey, and reads what it logs: accesses, system calls, forks, and what was mapped as each program began.

Each process has a log of its own, which is read as it grows; a filter drops near accesses meanwhile (near.c where there is a C compiler, else Near here), so that
only what stays is kept. A program that takes the place of another by exec begins a new log.
"""
import contextlib
import ctypes
import math
import os
import re
import shutil
import signal
import subprocess
import sys
import tempfile
import threading
import time
from typing import NamedTuple

HERE = os.path.dirname(os.path.abspath(__file__))
PAGE = 4096
LOAD, STORE, FETCH = 1, 2, 4
KINDS = {" L": LOAD, " S": STORE, " M": LOAD | STORE, "I ": FETCH}
CHUNK = 1 << 20
PUNCH = 3  # FALLOC_FL_PUNCH_HOLE | FALLOC_FL_KEEP_SIZE
QUIET = 20  # looks at the folder after all has ended
GRACE = 10  # seconds that children may go on after the command
ENOUGH = 3 * 14  # kept bytes for each line of the trace: the shortest access is 14, and not all that is kept gives a line
ACCESS = re.compile(r"^( [LSM]|I ) ([0-9a-f]+),(\d+)$")
CALL = re.compile(r"^SYSCALL\[(\d+),(\d+)\]\(\d+\) (?:sys_)?(\w+) ?\( (.*) \) *(.*)$")
RESUMED = re.compile(r"^SYSCALL\[(\d+),(\d+)\]\(\d+\) \.\.\. \[async\] *(.*)$")
SUCCESS = re.compile(r"Success\(0x([0-9a-f]+)\)")
CHILD = re.compile(r"process \d+ created child (\d+)")


class Near:
    """The filter of near.c."""

    def __init__(self, most):
        self.most, self.pages = most, {}
        self.all = self.kept = 0

    def is_near(self, page, kind):
        """Whether the page was among the last ones, and was accessed so; it is the last one now."""
        kinds = self.pages.pop(page, 0)
        self.pages[page] = kinds | kind
        if len(self.pages) > self.most:
            del self.pages[next(iter(self.pages))]
        return kinds & kind == kind

    def is_kept(self, line):
        kind, comma = KINDS.get(line[:2]), line.find(",")
        if kind is None or comma < 0:
            return True
        at, length = int(line[2:comma], 16), int(line[comma + 1:])
        self.all += 1
        is_kept = not self.is_near(at // PAGE, kind) or (at + length - 1) // PAGE != at // PAGE
        self.kept += is_kept
        return is_kept


class Log(NamedTuple):
    """What was kept of a log: its process, the file, and how many accesses there were and are."""

    pid: int
    path: str
    all: int
    kept: int


class Follower(threading.Thread):
    """Reads a log as it grows, from its unlinked file, whose bytes it gives back to the disk behind itself; and keeps what the filter leaves."""

    def __init__(self, path, kept_path, near, program):
        super().__init__(daemon=True)
        self.pid, self.kept_path = int(path.rsplit(".", 1)[1]), kept_path
        self.source = os.open(path, os.O_RDWR)
        os.unlink(path)
        self.near, self.program = near, program
        self.is_over, self.counts = threading.Event(), (0, 0)

    def chunks(self):
        """What is logged, as it comes."""
        at = 0
        while True:
            is_last = self.is_over.is_set()
            chunk = os.read(self.source, CHUNK)
            if chunk:
                ctypes.CDLL(None).fallocate(self.source, PUNCH, ctypes.c_long(at), ctypes.c_long(len(chunk)))
                at += len(chunk)
                yield chunk
            elif is_last:
                return
            else:
                time.sleep(0.005)

    def run(self):
        with open(self.kept_path, "wb") as kept:
            if self.program:
                self.run_program(kept)
            else:
                self.run_here(kept)
        os.close(self.source)

    def run_program(self, kept):
        with subprocess.Popen([self.program, str(self.near)], stdin=subprocess.PIPE, stdout=kept, stderr=subprocess.PIPE) as filtering:
            for chunk in self.chunks():
                filtering.stdin.write(chunk)
            filtering.stdin.close()
            self.counts = tuple(map(int, filtering.stderr.read().split()))

    def run_here(self, kept):
        rest, filtering = b"", Near(self.near)
        for chunk in self.chunks():
            *lines, rest = (rest + chunk).split(b"\n")
            text = (it.decode(errors="replace") for it in lines)
            kept.write("".join(f"{it}\n" for it in text if self.near == 0 or filtering.is_kept(it)).encode())
        self.counts = filtering.all, filtering.kept

    def kept_bytes(self):
        return os.path.getsize(self.kept_path) if os.path.exists(self.kept_path) else 0

    def log(self):
        return Log(self.pid, self.kept_path, *self.counts)


def filter_program(folder):
    """near.c, compiled into a folder; None where there is no C compiler."""
    compiler, program = shutil.which(os.environ.get("CC", "cc")), f"{folder}/near"
    if compiler is None:
        return None
    done = subprocess.run([compiler, "-O2", "-o", program, f"{HERE}/near.c"], capture_output=True)
    return program if done.returncode == 0 else None


def is_alive(pid):
    """Whether a process runs: one that is dead and was not waited for does not."""
    try:
        with open(f"/proc/{pid}/stat") as file:
            return file.read().rpartition(")")[2].split()[0] != "Z"
    except OSError:
        return False


class Capture(NamedTuple):
    """What a run left: its logs, in the order in which they began, what valgrind's -d said, the exit status, and whether it was stopped for its length."""

    logs: list
    told: list
    status: int
    is_stopped: bool


def stop(running):
    """Ends the processes of a command that are of its own session."""
    with contextlib.suppress(ProcessLookupError):
        os.killpg(running.pid, signal.SIGKILL)


def follow_all(running, folder, near, program, most):
    """Follows each log that appears until the command and its children have ended, or are stopped, since enough is kept for `most` lines or the command ended a while
    before them: the followers, and whether it was so."""
    followers, quiet, is_stopped, end = [], 0, False, math.inf
    while quiet < QUIET:
        for name in sorted(it for it in os.listdir(folder) if it.startswith("log.")):
            followers.append(Follower(f"{folder}/{name}", f"{folder}/kept.{len(followers)}", near, program))
            followers[-1].start()
        if running.poll() is not None:
            end = min(end, time.monotonic())
        is_alone = not any(is_alive(it.pid) for it in followers)
        is_late = not is_alone and time.monotonic() > end + GRACE
        has_ended = end < math.inf and (is_late or is_alone)
        quiet = quiet + 1 if has_ended else 0
        if not is_stopped and (is_late or sum(it.kept_bytes() for it in followers) > most * ENOUGH + CHUNK):
            stop(running)
            is_stopped = True
        time.sleep(0.002)
    return followers, is_stopped


def capture(command, folder, near, most):
    """Runs a command, with files in a folder. With `near` 0 each access is kept."""
    logging = ["--trace-mem=yes", "--trace-syscalls=yes", "--trace-children=yes", f"--log-file={folder}/log.%p"]
    program = filter_program(folder) if near else None
    with open(f"{folder}/told", "wb") as told:
        running = subprocess.Popen(["valgrind", "-d", "--tool=lackey", *logging, *command], stderr=told, start_new_session=True)
    try:
        followers, is_stopped = follow_all(running, folder, near, program, most)
    except BaseException:
        stop(running)
        raise
    for it in followers:
        it.is_over.set()
    for it in followers:
        it.join()
    with open(f"{folder}/told", errors="replace") as told:
        return Capture([it.log() for it in followers], told.read().splitlines(), running.returncode, is_stopped)


# Events

class Access(NamedTuple):
    """A load, a store, both or a fetch of some bytes."""

    kind: int
    at: int
    length: int


class Call(NamedTuple):
    """A system call that succeeded: its name, the text of its arguments, and what it gave. A fork gives the child's number."""

    name: str
    words: str
    result: int


def event_of(line, waiting):
    """The event that a line tells; None for no event. `waiting` has the calls whose result comes in a later line."""
    found = ACCESS.match(line)
    if found:
        return Access(KINDS[found[1]], int(found[2], 16), int(found[3]))
    if not line.startswith("SYSCALL["):
        return None
    found = RESUMED.match(line)
    if found:
        name, words = waiting.pop((found[1], found[2]), ("", ""))
        end = found[3]
    elif child := CHILD.search(line):
        return Call("fork", "", int(child[1]))
    elif found := CALL.match(line):
        name, words, end = found[3], found[4], found[5]
        if "[async] ..." in end:
            waiting[found[1], found[2]] = name, words
            return None
    result = SUCCESS.search(end) if found else None
    return Call(name, words, int(result[1], 16)) if result else None


def events(log):
    """The events of a log."""
    waiting = {}
    with open(log.path, errors="replace") as lines:
        for line in lines:
            event = event_of(line.rstrip("\n"), waiting)
            if event:
                yield event


# What was mapped as a program began

class Segment(NamedTuple):
    """Pages of a program at its begin: the first one, the one after the last, rights as `rw-`, and the file and the byte from which they come, or no file."""

    first: int
    end: int
    rights: str
    path: str
    offset: int


SEGMENT = re.compile(r"aspacem +\d+: (file|anon|RSVN) ([0-9a-f]+)-([0-9a-f]+) +\S+ ([rwxT-]+)(?: d=\S+ i=\S+ +o=(\d+) +\((\d+),)?")
NAME = re.compile(r"aspacem +\((\d+),\d+,\d+\) (.*)")


def segment_of(row, names):
    """The segment that a row of a layout tells: a program's own, or the room that its stack may take; None for others."""
    found = SEGMENT.search(row)
    if not found or (found[1] == "RSVN" and "SmUpper" not in row):
        return None
    rights = "rw-" if found[1] == "RSVN" else "".join(it if it in found[4] else "-" for it in "rwx")
    path = names.get(found[6]) if found[1] == "file" else None
    return Segment(int(found[2], 16) // PAGE, (int(found[3], 16) + 1) // PAGE, rights, path, int(found[5] or 0))


def layouts(told):
    """For each process the layouts of the programs that it became, in their order."""
    found, names, rows = {}, {}, None
    for line in told:
        mark = re.match(r"--(\d+):1: aspacem (.*)", line)
        if not mark:
            continue
        if "Memory layout at client startup" in mark[2]:
            names, rows = {}, []
            found.setdefault(int(mark[1]), []).append(rows)
        elif rows is not None and mark[2].startswith(">>>"):
            rows = None
        elif rows is not None and (name := NAME.search(line)):
            names[name[1]] = name[2].strip()
        elif rows is not None and (segment := segment_of(line, names)):
            rows.append(segment)
    return found
