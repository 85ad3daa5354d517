"""try_page.py PAGE LIBRARY: takes the C program of a page (docs/C.md), builds it against LIBRARY (libkefs.a), and runs it; each of its runs
has to print what the page says. Then it simulates STATES power cuts in one run, in each model of stores/powercuts.py, and runs the program
on what each has left: the accounts have to sum to 0, after as many transfers as there were or up to a run's more. A disk that ignores one
sync in three is the control, and has to fail so."""
import os
import random
import re
import subprocess
import sys
import tempfile

EMBED = os.path.dirname(os.path.dirname(os.path.abspath(__file__)))
sys.path.insert(0, os.path.join(EMBED, "stores"))
sys.dont_write_bytecode = True
import powercuts  # noqa: E402

STATES, RUN = 30, 100  # states of a model, and transfers that the program makes in a run
SAYS = "{} transfers, the accounts sum to 0"
STRICT = ["-O2", "-Wall", "-Wextra", "-Werror"]


def program_of(page):
    """The first C program of a page."""
    with open(page) as text:
        return re.search(r"^```c\n(.*?)^```$", text.read(), re.S | re.M)[1]


def built(*words):
    """Compiles and links."""
    subprocess.run([os.environ.get("CC", "cc"), *STRICT, *words], check=True)


def said(folder, **environment):
    """What the program prints, or what it reports where it fails."""
    done = subprocess.run(["./bank"], cwd=folder, capture_output=True, text=True, timeout=60, env=os.environ | environment)
    return done.stdout.strip() if done.returncode == 0 else f"status {done.returncode}: {done.stderr.strip()}"


def bad_states(folder, base, trace, model, ignores):
    """How many of STATES power cuts leave another bank than one after some transfer of the recorded run."""
    right = {SAYS.format(number) for number in range(3 * RUN, 4 * RUN + 1)}
    bad = 0
    for state, _, _ in powercuts.states(base, trace, model, STATES, random.Random(1), ignores):
        with open(os.path.join(folder, "bank.img"), "wb") as image:
            image.write(state)
        bad += said(folder) not in right
    return bad


def main(page, library):
    program = program_of(page)
    with tempfile.TemporaryDirectory(dir="/dev/shm" if os.access("/dev/shm", os.W_OK) else None) as folder:
        source, recorder, trace, image = (os.path.join(folder, name) for name in ("bank.c", "recorder.so", "trace", "bank.img"))
        with open(source, "w") as file:
            file.write(program)
        built("-std=c99", "-pedantic", "-I", EMBED, "-o", os.path.join(folder, "bank"), source, library, "-pthread")
        built("-std=gnu11", "-fPIC", "-shared", "-o", recorder, os.path.join(EMBED, "stores", "recorder.c"), "-ldl")
        for number in (RUN, 2 * RUN):
            assert said(folder) == SAYS.format(number), said(folder)
        with open(image, "rb") as file:
            base = file.read()
        assert said(folder, RECORDED="bank.img", TRACE=trace, LD_PRELOAD=recorder) == SAYS.format(3 * RUN)
        bad = sum(bad_states(folder, base, trace, model, 0) for model in powercuts.MODELS.values())
        control = sum(bad_states(folder, base, trace, model, 3) for model in powercuts.MODELS.values())
    print(f"{page}: {len(program.splitlines())} lines of C, {len(powercuts.MODELS) * STATES} power cuts: {bad} bad; {control} on a disk that ignores one sync in three")
    return 0 if bad == 0 < control else 1


if __name__ == "__main__":
    sys.exit(main(sys.argv[1], os.path.abspath(sys.argv[2])) if len(sys.argv) == 3 else "usage: try_page.py PAGE LIBRARY")
