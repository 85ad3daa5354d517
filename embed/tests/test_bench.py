"""test_bench.py BENCH: SQLite's log, in the rows with WAL of a run of bench.c, keeps its length, as it does in use: one that is cut before it is timed grows anew in
each timed commit, and makes those slower. It asks strace, and is skipped with a line where there is none."""
import re
import shutil
import subprocess
import sys
import tempfile

CUT = re.compile(r"^\d+ +(?:f?truncate)\([^)]*bench\.wal-wal[^)]*, 0\)", re.M)


def cuts_of(bench):
    """The calls that cut the log in a run of a few commits."""
    with tempfile.TemporaryDirectory() as folder:
        log = f"{folder}/calls"
        done = subprocess.run(["strace", "-f", "-y", "-e", "trace=ftruncate,truncate", "-o", log, bench, "commits", folder, "1", "3", "spread", "0"], capture_output=True, text=True)
        if done.returncode != 0 or "wal" not in done.stdout:
            return None
        with open(log, encoding="utf-8") as file:
            return CUT.findall(file.read())


def main(bench):
    if shutil.which("strace") is None:
        print("test_bench: skipped, there is no strace")
        return 0
    cuts = cuts_of(bench)
    if cuts is None:
        print("test_bench: skipped, no row of SQLite could be timed under strace")
        return 0
    print(f"test_bench: SQLite's log was cut {len(cuts)} times")
    return 1 if cuts else 0


if __name__ == "__main__":
    sys.exit(main(sys.argv[1]))
