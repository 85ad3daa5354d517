"""speed.py OUT FOLDER ROUNDS TRANSACTIONS: how long a transaction of the workload takes alone and over kefs, as a table in Markdown.

In each round every store runs TRANSACTIONS transactions in each of its ways, in random order, so that a noisy device is noisy for all. A
number is the median over the rounds, in brackets the least and the greatest. OUT holds what `run` builds; FOLDER says which device it is."""
import os
import random
import statistics
import subprocess
import sys
import tempfile
import time

# The mode of workload.c, and kefsrun's option over kefs.
STORES = {
    "LMDB": (("lmdb", None), ("lmdb-writemap", None), ("lmdb-writemap", "part")),
    "Kyoto Cabinet": (("kyoto", None), ("kyoto-transactions", None), ("kyoto", "fsync")),
    "Tokyo Cabinet": (("tokyo", None), ("tokyo-transactions", None), ("tokyo", "fsync")),
    "gdbm": (("gdbm", None), ("gdbm", "every")),
    "SQLite": (("sqlite", None), ("sqlite-wal", None), ("sqlite", "every"), ("sqlite-wal", "every")),
    "a file written anew": (("rewritten", None), ("rewritten", "every")),
}


def command(out, folder, mode, commit_at, transactions):
    """Runs so many transactions, on the same data file each time."""
    name = os.path.join(folder, f"{mode}.{commit_at or 'alone'}")
    words = [os.path.join(out, "workload"), mode, f"{name}.db", "run", "1", str(transactions)]
    over = [os.path.join(out, "kefsrun"), "-c", commit_at, f"{name}.img", f"{name}.db", "--"] if commit_at else []
    return over + words


def main(out, parent, rounds, transactions):
    ways = [way for all_ways in STORES.values() for way in all_ways]
    taken = {way: [] for way in ways}
    with tempfile.TemporaryDirectory(dir=parent) as folder:
        for number in range(rounds + 1):  # the first one makes the stores
            for way in random.sample(ways, len(ways)):
                start = time.monotonic()
                subprocess.run(command(out, folder, *way, transactions), check=True)
                if number > 0:
                    taken[way].append((time.monotonic() - start) * 1e3 / transactions)
    print(f"Milliseconds a transaction, {rounds} rounds of {transactions}.\n\n| Store | Mode | Time |\n|---|---|---|")
    for store, all_ways in STORES.items():
        for mode, commit_at in all_ways:
            times = taken[mode, commit_at]
            over = ", over kefs" if commit_at else ""
            print(f"| {store} | `{mode}`{over} | {statistics.median(times):.2f} ({min(times):.2f} to {max(times):.2f}) |")


if __name__ == "__main__":
    if len(sys.argv) != 5:
        sys.exit("usage: speed.py OUT FOLDER ROUNDS TRANSACTIONS")
    main(os.path.abspath(sys.argv[1]), sys.argv[2], int(sys.argv[3]), int(sys.argv[4]))
