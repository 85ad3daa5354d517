"""compare.py BENCH FOLDER COMMITS [SYNC]: times of commits of 1, 10, 100 and 1,000 pages, spread over a file of 1,024 and the same ones each time (hot), as
multiples within one run (bench.c says of what), each of medians; then of one page of a worn file of 1 GiB over one of 4 MiB; and commits a second of threads, with
syncs of 4 ms. SYNC is how many microseconds each
sync takes at least, for all alike.

compare.py figures BENCH FOLDER MEMORY: the text of docs/pictures/commits.txt, of FOLDER on a disk, the same with syncs of 4 ms, and MEMORY on tmpfs. It is
refused where the machine has other work, and runs before all other work where it may (`make figures`, as root)."""
import os
import subprocess
import sys

OTHERS = ("msync", "wal", "delete", "lmdb")
THREADS, THREAD_COMMITS = 16, 60
TRACKERS = {"scan": "scan", "ranges": "scan, of a range", "signal": "signal", "caller": "caller"}
QUIET, SLOW = 1.5, 4000  # the most other work, by the system's load, and microseconds of a slow sync
HEAD = """\
Times of commits by embed/tools/compare.py, medians of 60 commits (40 with slower syncs) of pages of a file of 1,024: kefs_commit in us, and as multiples of medians of
the same run: kefs_commit over its own device calls, made again from ready buffers; the stores and kefs_commit over the stores and msync(MS_SYNC), over as many rows
of a page in SQLite with synchronous=FULL, with WAL, whose log has its length before, and with a rollback journal, and over LMDB, as it is by default. Hot: the same
pages each time; else random ones. One run, {}.

device                pages           us   calls   msync    WAL  rollback   LMDB"""
WORN = """
Worn: a file of 1 GiB, a page of each 2 MiB of which was stored to, so that the kernel has split its large pages: a commit of one page of it in us, and over one of a
worn file of 4 MiB.
"""


def timed(*words):
    """The numbers of each line of the bench, by its first word: the quartiles in microseconds, the mean, and how many syncs."""
    lines = subprocess.run(words, capture_output=True, text=True, check=True).stdout.splitlines()
    return {line.split()[0]: [float(word) for word in line.split()[1:]] for line in lines}


def over(times, one, other):
    """The medians of two modes, one over the other."""
    return f"{times[one][1] / times[other][1]:.2f}" if other in times else "-"


def commits_of(bench, folder, commits, sync):
    """The times of each way and number of pages."""
    for way in ("spread", "hot"):
        for pages in (1, 10, 100, 1000):
            yield way, pages, timed(bench, "commits", folder, str(pages), str(commits), way, str(sync))


def worn_of(bench, folder, commits, sync):
    """Of each tracker: a commit of one page of a worn GiB in us, and over one of 4 MiB."""
    times = timed(bench, "worn", folder, "1024", str(commits), str(sync))
    return {it: (times[f"{it}-1024"][1], times[f"{it}-4"][1]) for it in TRACKERS}


def threads_of(bench, folder, sync):
    """How many commits threads make a second, a page each, and how many syncs one takes: started and waited for, by kefs_commit, and in SQLite."""
    times = timed(bench, "threads", folder, str(THREADS), str(THREAD_COMMITS), str(sync))
    words = [f"{name} {rate:,.0f} ({syncs:.2f} syncs each)" for name, (rate, syncs) in times.items()]
    more = f": {times['started'][0] / times['wal'][0]:.1f} times as many as wal" if "wal" in times else ""
    return f"{THREADS} threads of one page each, each sync at least {sync} us, commits a second: {', '.join(words)}{more}"


def compare(bench, folder, commits, sync="0"):
    print(f"{folder}, {commits} commits, a write and its sync take {timed(bench, 'sync', folder)['sync'][1]:.1f} us, each sync at least {sync}: times as multiples")
    print("pages        kefs_commit in us  syncs  over its device calls  with its stores over " + "  ".join(OTHERS))
    for way, pages, times in commits_of(bench, folder, commits, sync):
        others = "  ".join(f"{over(times, 'stored', it):>{len(it)}}" for it in OTHERS)
        print(f"{pages:5} {way:6} {times['kefs'][1]:17.1f} {times['kefs'][4]:6.1f}  {over(times, 'kefs', 'calls'):>21} {' ' * 21}{others}")
    for tracker, (large, small) in worn_of(bench, folder, commits, sync).items():
        print(f"a page of a worn GiB, {tracker}: {large:.1f} us, over one of 4 MiB ({small:.1f} us): {large / small:.2f}")
    print(threads_of(bench, folder, SLOW))


def goes_first():
    """Whether this runs before all other work from here on."""
    try:
        os.sched_setscheduler(0, os.SCHED_FIFO, os.sched_param(1))
    except OSError:
        return False
    return True


def row(name, way, pages, times):
    """A line of the figures."""
    each = "".join(f"{over(times, 'stored', it):>{width}}" for it, width in zip(OTHERS, (8, 7, 10, 7)))
    return f"{name:20}{pages:7,}{', hot' if way == 'hot' else '':5}{times['kefs'][1]:8,.0f}{over(times, 'kefs', 'calls'):>8}{each}"


def figures(bench, folder, memory):
    if os.getloadavg()[0] >= QUIET:
        sys.exit(f"compare: the machine has other work (load {os.getloadavg()[0]:.1f}), and would be slow for one mode and not for another")
    print(HEAD.format("before all other work of the machine" if goes_first() else "on a machine without other work"))
    sync = timed(bench, "sync", folder)["sync"][1]
    devices = {f"ext4, syncs of {sync:.0f} us": (folder, 60, 0), "ext4, each sync 4 ms": (folder, 40, SLOW), "tmpfs": (memory, 60, 0)}
    one_page = {}
    for name, (where, commits, least) in devices.items():
        for way, pages, times in commits_of(bench, where, commits, least):
            one_page.setdefault(name, times)
            print(row(name, way, pages, times), flush=True)
    print(WORN)
    worn = [worn_of(bench, folder, 60, 0), worn_of(bench, memory, 60, 0), worn_of(bench, folder, 40, SLOW)]
    print("tracker              ext4: us           tmpfs: us           ext4, each sync 4 ms: us")
    for tracker, name in TRACKERS.items():
        cells = [f"{large:{width},.0f}{large / small:7.2f}" for (large, small), width in zip((it[tracker] for it in worn), (11, 13, 14))]
        print(f"{name:17}{''.join(cells)}")
    calls, all_of_it = (one_page["tmpfs"][it][1] for it in ("calls", "kefs"))
    print(f"\n{threads_of(bench, folder, SLOW)}.")
    print(f"\nOn tmpfs the calls of a commit of one page take {calls:.0f} of its {all_of_it:.0f} us.")


if __name__ == "__main__":
    figures(*sys.argv[2:]) if sys.argv[1] == "figures" else compare(*sys.argv[1:])
