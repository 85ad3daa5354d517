"""large.py OUT STOPS SEED: SQLite's database in an image of kefsrun, with transactions of over 100 MB, and made anew.

In each journal mode one transaction changes all rows, with a small cache, so that the database and a journal as large are written before it ends; with kefsrun -j, and
once without, where its sync is E2BIG and SQLite plays the journal back. Then the database is written to a new file, by VACUUM INTO or .backup, which is renamed to it.
Each is killed (SIGKILL) at STOPS random moments; then SQLite has to find all rows as before or all as after, and as after where the program had said so. A line says how many
stops were tried, and how many states were bad; the exit status is 1 where one was, or a journal was too small for this to be a test.
"""
import os
import random
import shutil
import signal
import subprocess
import sys
import tempfile
import time
from typing import NamedTuple

ROWS, LENGTH = 27000, 4000  # a row takes a page
LEAST_JOURNAL = 100 << 20
MODES = ("delete", "truncate", "persist", "wal")
NEEDED = ("data", "data-journal", "data-wal")


class Case(NamedTuple):
    """What is killed: its name; the options of kefsrun; the mode of the journal; the words of the program; and whether all rows change, or none."""

    name: str
    options: tuple
    mode: str
    words: tuple
    changes: bool


def value(letter):
    """The expression of a row's value, by a letter."""
    return f"replace(hex(zeroblob({LENGTH // 2})), '00', '{letter}{letter}')"


def update(mode):
    """The program of a large transaction."""
    text = f"pragma journal_mode={mode}; pragma synchronous=full; pragma cache_size=50; update t set v = {value('b')}; select 'done';"
    return ("sqlite3", "data", text)


CASES = (
    *(Case(f"a transaction, journal_mode={mode}", ("-j",), mode, update(mode), True) for mode in MODES),
    Case("a transaction without -j", (), "delete", update("delete"), False),
    Case("VACUUM INTO and rename", (), "delete", ("sh", "-ec", "rm -f new; sqlite3 data \"vacuum into 'new'\"; mv new data; echo done"), False),
    Case(".backup and rename", (), "delete", ("sh", "-ec", "rm -f new; sqlite3 data '.backup new'; mv new data; echo done"), False),
)


class Trial:
    """A case in a folder of its own."""

    def __init__(self, case, out, folder):
        self.case, self.kefsrun, self.folder, self.kept = case, os.path.join(out, "kefsrun"), os.path.join(folder, "now"), os.path.join(folder, "kept")
        self.journal = 0
        os.makedirs(self.folder)
        rows = f"with recursive c(k) as (select 1 union all select k + 1 from c where k < {ROWS}) insert into t select k, {value('a')} from c"
        made = self.run("sqlite3", "data", f"pragma journal_mode={case.mode}; create table t(k integer primary key, v); {rows}; pragma wal_checkpoint(truncate);")
        if made.returncode != 0:
            sys.exit(f"large: {case.name}: {made.stderr.decode()}")
        shutil.copytree(self.folder, self.kept)

    def command(self, *words):
        """The words of kefsrun."""
        return [self.kefsrun, *self.case.options, "image", "data", "--", *words]

    def run(self, *words):
        """Runs a program to its end."""
        return subprocess.run(self.command(*words), cwd=self.folder, capture_output=True)

    def begin_again(self):
        """The state before."""
        shutil.rmtree(self.folder)
        shutil.copytree(self.kept, self.folder)

    def killed(self, seconds):
        """Runs the case for a time, and kills all of it: whether it had said that it is done."""
        self.begin_again()
        with subprocess.Popen(self.command(*self.case.words), cwd=self.folder, stdout=subprocess.PIPE, stderr=subprocess.DEVNULL, start_new_session=True) as run:
            time.sleep(seconds)
            os.killpg(run.pid, signal.SIGKILL)
            told = run.communicate()[0]
        for name in ("data-journal", "data-wal"):
            path = os.path.join(self.folder, name)
            self.journal = max(self.journal, os.path.getsize(path) if os.path.exists(path) else 0)
        return b"done" in told

    def took(self):
        """How long it takes if nothing kills it, and that it does what it should."""
        self.begin_again()
        start = time.monotonic()
        done = self.run(*self.case.words)
        seconds = time.monotonic() - start
        is_refused = self.case.name == "a transaction without -j"
        if (done.returncode != 0) != is_refused or self.state() != ("b" if self.case.changes else "a"):
            sys.exit(f"large: {self.case.name}: {done.returncode} {done.stderr.decode()} {self.state()}")
        return seconds

    def state(self):
        """The letter of all rows, or what is wrong."""
        text = "pragma integrity_check; select count(*), min(v) = max(v), length(v), substr(v, 1, 1) from t;"
        seen = self.run("sqlite3", "data", text).stdout.decode().split()
        whole = [f"{ROWS}|1|{LENGTH}|{letter}" for letter in "ab"]
        return seen[1][-1] if len(seen) == 2 and seen[0] == "ok" and seen[1] in whole else f"bad: {seen}"

    def is_bad(self, is_done):
        """Whether what a stop has left is bad."""
        allowed = "a" if not self.case.changes else "b" if is_done else "ab"
        state = self.state()
        if state not in allowed:
            print(f"large: {self.case.name}: {state}", flush=True)
        return state not in allowed


def tried(case, out, parent, stops, rng):
    """Tries a case: how many states were bad, and the largest journal."""
    folder = tempfile.mkdtemp(prefix="large.", dir=parent)
    try:
        trial = Trial(case, out, folder)
        seconds = trial.took()
        found = sum(trial.is_bad(trial.killed(rng.random() * seconds * 1.1)) for _ in range(stops))
        return found, trial.journal
    finally:
        shutil.rmtree(folder)


def main(out, stops, seed, parent=None):
    rng, status = random.Random(seed), 0
    for case in CASES:
        found, journal = tried(case, out, parent, stops, rng)
        is_small = case.words[0] == "sqlite3" and stops >= 20 and journal < LEAST_JOURNAL
        print(f"SQLite, {case.name}: {stops} stops, {found} bad; its journal had up to {journal >> 20} MiB", flush=True)
        status |= bool(found) or is_small
    return status


if __name__ == "__main__":
    if len(sys.argv) not in (4, 5):
        sys.exit("usage: large.py OUT STOPS SEED [FOLDER]")
    sys.exit(main(os.path.abspath(sys.argv[1]), int(sys.argv[2]), int(sys.argv[3]), *sys.argv[4:]))
