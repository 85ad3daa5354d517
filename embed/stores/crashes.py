"""crashes.py OUT STATES SEED IMAGES: what power cuts leave of five stores and of a file, alone and over kefs, as a table in Markdown.

OUT holds what `run` builds. Of each store STATES states are tried over kefs, in equal parts over its rows, and of each row at most ALONE_MOST alone:
a third of them in each model of powercuts.py, in rounds of one recorded run each. A state is bad where `workload check` finds it as after no transaction,
where the store refuses, crashes or hangs, and where a transaction is missing that was acknowledged. Alone a store may repair itself first. Over kefs it
may not, but for SQLite, whose log is a file of the host there too. The state is read twice, apart from the library (tools/imagecat) and by kefsrun, and has
to be the same. IMAGES: `4`, as kefsrun makes them, in which the data file grows; or, as older kefsruns made them, of a fixed length, `fixed` of layout 4, or
`2` of layout 2.

The last row is a control: a disk that ignores one sync in three, over which no library keeps anything whole. Where no state of it is bad this
test is blind. The exit status is 1 then, or where a state over kefs is bad, else 0.
"""
import collections
import contextlib
import io
import os
import random
import runpy
import shutil
import subprocess
import sys
import tempfile
from typing import NamedTuple

import powercuts

HERE = os.path.dirname(os.path.abspath(__file__))
sys.path.insert(1, os.path.join(HERE, ".."))
from images import new_image, new_pool_image, pool_homes  # noqa: E402

IMAGECAT = os.path.join(HERE, "..", "..", "tools", "imagecat")
ROOM = 2 << 20  # as workload.h has it
LENGTH_FILE = 4096  # bytes of the other file of an image of a fixed length
MOST = 1 << 30  # bytes that the data file of an image with a small pool may get
FIXED = {"fixed": 4, "2": 2}  # their layouts
BEFORE, RECORDED = 100, 60  # transactions that are durable before a recorded run, and of it
LARGE_BEFORE, LARGE_RECORDED, LARGE_STATES = 2, 3, 30  # of large ones
DATA_FILES = {0: 2, 2: 3, 3: 0}  # the numbers that the data file has in turn
ROUND = 50  # states of a model and a recorded run
ALONE_MOST = 300  # states of a row
PATIENCE = 20  # seconds


class Row(NamedTuple):
    """A store, how it makes a transaction durable, and its mode in workload.c. `commit_at`: the option of kefsrun over kefs; None where it is
    only tried alone. `log`: what the name of its log has more than that of its file. `is_alone`: it is tried alone, too. `is_large`: a transaction changes more
    pages than a commit takes, and a state takes seconds, so that few are tried."""

    store: str
    way: str
    mode: str
    commit_at: str | None
    log: str = ".wal"
    is_alone: bool = True
    is_large: bool = False


ROWS = (
    Row("LMDB", "its default", "lmdb", "every"),
    Row("LMDB", "`MDB_WRITEMAP`", "lmdb-writemap", "part"),
    Row("LMDB", "`MDB_WRITEMAP`, `MDB_NOSYNC`", "lmdb-writemap-nosync", None),
    Row("Kyoto Cabinet", "`synchronize(hard)`", "kyoto", "fsync"),
    Row("Kyoto Cabinet", "its transactions", "kyoto-transactions", None),
    Row("Tokyo Cabinet", "`tchdbsync`", "tokyo", "fsync"),
    Row("Tokyo Cabinet", "its transactions", "tokyo-transactions", None),
    Row("gdbm", "`gdbm_sync`", "gdbm", "every"),
    Row("SQLite", "its rollback journal", "sqlite", "every", "-journal"),
    Row("SQLite", "its journal, removed", "sqlite-delete", "every", "-journal"),
    Row("SQLite", "its journal, written over", "sqlite-persist", "every", "-journal"),
    Row("SQLite", "its journal, large transactions", "sqlite-delete-large", "every", "-journal", False, True),
    Row("SQLite", "its WAL", "sqlite-wal-psow", None, "-wal"),
    Row("SQLite", "its WAL, `psow=0`", "sqlite-wal", "every", "-wal"),
    Row("SQLite", "its WAL, large transactions", "sqlite-wal-large", "every", "-wal", False, True),
    Row("a file", "written anew in its place", "rewritten", "every"),
    Row("a file", "written anew and renamed", "renamed", "every", is_alone=False),
)
CONTROL = Row("control: gdbm", "on a disk that ignores one sync in three", "gdbm", "every")
CONTROL_IGNORES, CONTROL_STATES = 3, 300

# The store's own tools, which read all of it.
OWN = {
    "lmdb": (["mdb_stat", "-n", "-e", "-f", "-a"], ["mdb_dump", "-n", "-a"]),
    "kyoto": (["kchashmgr", "check"],),
    "tokyo": (["tchmgr", "list", "-pv"],),
    "gdbm": (["gdbm_dump"],),
    "rewritten": (["cat"],),
    "renamed": (["cat"],),
    "sqlite": (["sh", "-c", 'test "$(sqlite3 "$0" "pragma integrity_check")" = ok'],),
}


class Verdict(NamedTuple):
    """What a state is (ok, lost, torn, refused, crashed, hangs, differs), and whether the store's own tools refuse it."""

    what: str
    refused: bool


def ran(command, **environment):
    """The exit status and the output of a program; None and no output where it does not end."""
    try:
        done = subprocess.run(command, stdout=subprocess.PIPE, stderr=subprocess.DEVNULL, timeout=PATIENCE, env=os.environ | environment)
        return done.returncode, done.stdout
    except subprocess.TimeoutExpired:
        return None, b""


def written(path, content):
    """Makes a file of these bytes."""
    with open(path, "wb") as file:
        file.write(content)


def imagecat(image, file):
    """What tools/imagecat writes of a file of an image. It runs in this process, since a process for each state takes longer than all
    else; None where it finds no image."""
    words, sys.argv = sys.argv, [IMAGECAT, image, str(file)]
    output = io.TextIOWrapper(io.BytesIO())
    try:
        with contextlib.redirect_stdout(output):
            runpy.run_path(IMAGECAT, run_name="__main__")
    except SystemExit:
        return None
    finally:
        sys.argv = words
    return output.buffer.getvalue()


def read_apart(image):
    """The data file's bytes by a reader that shares no code with the library; None where the image is none. Of two files that may be it the next one is."""
    there = {number: imagecat(image, number) for number in DATA_FILES}
    found = [data for number, data in there.items() if data is not None and there[DATA_FILES[number]] is None]
    other = imagecat(image, 1)
    if len(found) != 1 or other is None:
        return None
    return found[0][:int.from_bytes(other[:8], "little")] if len(other) == LENGTH_FILE else found[0]


def small_image():
    """An image as kefsrun makes them, of an empty data file, but whose commits take fewer pages."""
    image = bytearray(new_pool_image([0, 8], blocks=1))
    at = 512 * pool_homes(image) + 4096 * 4
    image[at:at + 8] = MOST.to_bytes(8, "little")
    return image


class Trial:
    """One row, alone or over kefs, in a folder of its own."""

    def __init__(self, row, out, folder, images=None):
        self.row, self.out, self.folder, self.images = row, out, folder, images
        self.is_kefs = images is not None
        self.grown = collections.Counter()
        self.store = next(it for it in OWN if row.mode.startswith(it))

    def path(self, name):
        """A file of the folder."""
        return os.path.join(self.folder, name)

    def workload(self, name, *words):
        """The command that runs the workload on a data file, over the image of the same name where it is over kefs."""
        command = [os.path.join(self.out, "workload"), self.row.mode, self.path(f"{name}.db"), *words]
        return [*self.kefsrun(name), *command] if self.is_kefs else command

    def kefsrun(self, name):
        """The words of kefsrun before a command."""
        options = ["-j"] if self.row.is_large else []
        return [os.path.join(self.out, "kefsrun"), *options, "-c", self.row.commit_at, self.path(f"{name}.img"), self.path(f"{name}.db"), "--"]

    def recorded(self, seed):
        """Runs the workload: the bytes of the file, or of the image, before the recorded part, and the trace of that."""
        self.clear("run")
        if self.images in FIXED:
            written(self.path("run.img"), new_image([ROOM, LENGTH_FILE], layout=FIXED[self.images]))
        if self.is_kefs and self.row.is_large:
            written(self.path("run.img"), small_image())
        file, trace = self.path("run.img" if self.is_kefs else "run.db"), self.path("run.trace")
        names = {"RECORDED": file, "LOGGED": self.path("run.db" + self.row.log), "TRACE": trace}
        self.must_run(self.workload("run", "run", str(seed), str(self.before())))
        with open(file, "rb") as content:
            base = content.read()
        before = len(read_apart(file)) if self.is_kefs else 0
        self.must_run(self.workload("run", "run", str(seed), str(LARGE_RECORDED if self.row.is_large else RECORDED)), LD_PRELOAD=os.path.join(self.out, "recorder.so"), **names)
        if self.is_kefs:
            self.grown[len(read_apart(file)) > before] += 1
        return base, trace

    def before(self):
        """How many transactions are durable before a recorded run."""
        return LARGE_BEFORE if self.row.is_large else BEFORE

    def must_run(self, command, **environment):
        """Runs a command that has to succeed."""
        status, output = ran(command, **environment)
        if status != 0:
            sys.exit(f"crashes: {' '.join(command)}: status {status}: {output.decode(errors='replace').strip()}")

    def clear(self, name):
        """Removes a store, its log, its lock and its image."""
        for end in (".db", ".db.new", ".db-lock", ".db.wal", ".db-journal", ".db-wal", ".db-shm", ".img"):
            if os.path.exists(self.path(name + end)):
                os.unlink(self.path(name + end))

    def place(self, content, log):
        """Puts a state down as a store without an image."""
        self.clear("state")
        written(self.path("state.db"), content)
        self.place_log("state", log)

    def place_log(self, name, log):
        """Puts down the log of a state, which is a file of the host over kefs too."""
        if log is not None:
            written(self.path(f"{name}.db{self.row.log}"), log)

    def verdict(self, state, log, seed, acknowledged):
        """What a state is."""
        if not self.is_kefs:
            return self.verdict_of_plain(state, log, seed, acknowledged)[0]
        self.clear("cut")
        written(self.path("cut.img"), state)
        content = read_apart(self.path("cut.img"))
        if content is None:
            return Verdict("refused", True)
        verdict, text = self.verdict_of_plain(content, log, seed, acknowledged)
        self.place_log("cut", log)
        by_library = ran(self.workload("cut", "check", str(seed), "unrepaired"))[1]
        return verdict if by_library == text else verdict._replace(what="differs")

    def verdict_of_plain(self, content, log, seed, acknowledged):
        """What a data file and its log are, and the text of the check."""
        refused = False
        for tool in OWN[self.store]:
            self.place(content, log)
            refused |= ran([*tool, *(["-onr"] if self.is_kefs and self.store == "kyoto" else []), self.path("state.db")])[0] != 0
        self.place(content, log)
        words = [os.path.join(self.out, "workload"), self.row.mode, self.path("state.db"), "check", str(seed)]
        status, text = ran([*words, "unrepaired"] if self.is_kefs else words)
        return Verdict(verdict_of(status, text, acknowledged), refused), text


def verdict_of(status, text, acknowledged):
    """The word for what the check tells."""
    if status is None:
        return "hangs"
    words = text.decode(errors="replace").split()
    if status < 0 or not words:
        return "crashed"
    return "lost" if words[0] == "ok" and int(words[1]) < acknowledged else words[0]


def tried(trial, states, seed, ignores=0):
    """Tries so many states: by model, how many of them there are of each verdict; "own" counts those that the store's tools refuse."""
    tallies = {name: collections.Counter() for name in powercuts.MODELS}
    each = -(-states // len(tallies))
    for first in range(0, each, ROUND):
        base, trace = trial.recorded(seed + first)
        for name, model in powercuts.MODELS.items():
            rng = random.Random(f"{seed + first} {name}")
            for state, log, acknowledged in powercuts.states(base, trace, model, min(ROUND, each - first), rng, ignores):
                verdict = trial.verdict(state, log, seed + first, max(acknowledged, trial.before()))
                tallies[name][verdict.what] += 1
                tallies[name]["own"] += verdict.refused
    return tallies


def bad(tally):
    """How many states of a tally are bad."""
    return sum(count for what, count in tally.items() if what not in ("ok", "own"))


def cell(tally):
    """A tally in a column of the table."""
    states = sum(tally.values()) - tally["own"]
    return f"{bad(tally)} of {states} ({tally['own']})" + (f", {tally['lost']} lost" if tally["lost"] else "")


def say_kinds(row, kind, tallies):
    """Lists on standard error what the states are."""
    for name, tally in tallies.items():
        print(f"# {row.mode} {kind} {name}: {dict(sorted(tally.items()))}", file=sys.stderr, flush=True)


NOT_TRIED = {name: None for name in powercuts.MODELS}


def say_row(row, alone, over):
    """Prints a row of the table."""
    cells = ["-" if tally is None else cell(tally) for tallies in (alone, over) for tally in tallies.values()]
    print("|", " | ".join([f"{row.store}, {row.way}", *cells]), "|", flush=True)


def table(out, folder, states, seed, images):
    """Prints the table and, below it, what was found over kefs; gives the exit status."""
    print("Bad states; in brackets those that the store's own tools refuse, bad or not.\n")
    print("| Store | alone: page | sector | torn | over kefs: page | sector | torn |\n|---|---|---|---|---|---|---|", flush=True)
    found, grown = collections.defaultdict(collections.Counter), collections.defaultdict(collections.Counter)
    rows_over = collections.Counter(row.store for row in ROWS if row.commit_at is not None and not row.is_large)
    for row in ROWS:
        alone = tried(Trial(row, out, folder), min(states, ALONE_MOST), seed) if row.is_alone else NOT_TRIED
        trial = Trial(row, out, folder, images)
        is_over = row.commit_at is not None and (images not in FIXED or row.is_alone)
        each = LARGE_STATES if row.is_large else -(-states // rows_over[row.store])
        over = tried(trial, each, seed) if is_over else NOT_TRIED
        grown[row.store].update(trial.grown)
        if alone is not NOT_TRIED:
            say_kinds(row, "alone", alone)
        if over is not NOT_TRIED:
            say_kinds(row, "over kefs", over)
            for tally in over.values():
                found[row.store].update(tally)
        say_row(row, alone, over)
    control = tried(Trial(CONTROL, out, folder, images), CONTROL_STATES, seed, CONTROL_IGNORES)
    say_kinds(CONTROL, "control", control)
    say_row(CONTROL, NOT_TRIED, control)
    print()
    for name, tally in found.items():
        more = f"; its file grew in {grown[name][True]} of {grown[name].total()} recorded runs"
        print(f"{name}: {sum(tally.values()) - tally['own']} states over kefs, images {images}, {bad(tally)} bad{more}")
    blind = not any(bad(tally) for tally in control.values())
    if blind:
        print("crashes: the control has no bad state: this test is blind")
    return 1 if blind or any(bad(tally) for tally in found.values()) else 0


def main(out, states, seed, images):
    folder = tempfile.mkdtemp(prefix="stores.", dir="/dev/shm" if os.access("/dev/shm", os.W_OK) else None)
    try:
        return table(out, folder, states, seed, images)
    finally:
        shutil.rmtree(folder)


if __name__ == "__main__":
    if len(sys.argv) != 5 or sys.argv[4] not in ("4", *FIXED):
        sys.exit("usage: crashes.py OUT STATES SEED 4|fixed|2")
    sys.exit(main(sys.argv[1], int(sys.argv[2]), int(sys.argv[3]), sys.argv[4]))
