"""What mmu/look replays is the run: where the kernel's replies are known, pagelook's are the same. And what mmu/run --measure counts."""
import os
import re
import subprocess
import sys
import tempfile

HERE = os.path.dirname(os.path.abspath(__file__))
MMU = os.path.dirname(HERE)
sys.path[:0] = [MMU, HERE]
from devices import SECONDS
from looking import steps
from traces import at_once, loaded

PROGRAMS = {"hello": 64, "family": 64, "bank": 24, "grow": 24, "hostile": 400}  # and frames
MEASURED = re.compile(r"kernel: (\w+), ([\w ]+): requests (\d+), instructions of each (\d+) to (\d+), on average (\d+)")

look = loaded(f"{MMU}/look")


def replayed(name, frames):
    """How many lines a run has, how many replies of them are known, and the lines whose replies differ in the replay."""
    options = look.parsed(["--frames", str(frames), "--slots", "2048", f"{MMU}/user/{name}.c"])
    with tempfile.TemporaryDirectory() as room:
        text, before = look.run_of(room, options)
        found = steps(text)
        shown = look.looked([line for line, _ in found], before, f"{room}/swap2", options).splitlines()
    differing = [(line, known, got) for (line, known), got in zip(found, shown) if known not in (None, got)]
    return len(found), len(shown), sum(known is not None for _, known in found), differing


def try_look(tally):
    for name, (lines, shown, known, differing) in zip(PROGRAMS, at_once(lambda it: replayed(it, PROGRAMS[it]), PROGRAMS)):
        tally.check(f"look at {name}", (lines == shown, known > 0, differing[:3]), (True, True, []))
        print(f"look at {name}: {lines} lines, of which {known} have the kernel's replies")


def measured(frames):
    """How many requests of each kind and case there were."""
    words = [f"{MMU}/run", "--measure", "--frames", str(frames), "--slots", "400", f"{MMU}/user/pages.c"]
    text = subprocess.run(words, stdout=subprocess.PIPE, text=True, timeout=SECONDS).stdout
    return {(kind, case): int(count) for kind, case, count, *_ in MEASURED.findall(text)}


def try_measures(tally):
    """In frames enough no page is given up; in few each store and each later load gives up one."""
    many, few = measured(1000), measured(64)
    tally.check("frames enough", [case for _, case in many if "written" in case], [])
    tally.check("few frames", few["touch", "a page given up and written"] > 200 and few["load", "one written and one read"] > 200, True)


def try_looks(tally):
    try_look(tally)
    try_measures(tally)
