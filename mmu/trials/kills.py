"""`bank`, whose QEMU is killed at random moments, again and again on one image of either layout."""
import os
import random
import re
import subprocess
import sys
import tempfile
import time

HERE = os.path.dirname(os.path.abspath(__file__))
sys.path[:0] = [HERE]
from devices import GATES, SECONDS, WORDS, bank_image, content, disk, found_in, qemu_words, ran

FIRST_SUM = 1000000  # of all accounts
DURABLE = re.compile(rb"^durable (\d+)\r?\n", re.M)


def killed_run(words, log, rng):
    """Runs QEMU until it is killed, some time after the program's first line. Returns the greatest number of transfers that it told to be durable."""
    with open(log, "wb") as file:
        qemu = subprocess.Popen(words, stdin=subprocess.DEVNULL, stdout=file, stderr=subprocess.STDOUT)
    end = time.monotonic() + SECONDS
    while b"found" not in content(log) and time.monotonic() < end and qemu.poll() is None:
        time.sleep(0.01)
    time.sleep(rng.uniform(0, 0.2))
    qemu.kill()
    qemu.wait()
    return max(map(int, DURABLE.findall(content(log))), default=0)


def kill_again(tally, name, kills, rng):
    """Whatever moment it is killed at, the next run finds the sum of all accounts, whole msyncs, and all that it was told."""
    told = 0
    with tempfile.TemporaryDirectory() as room:
        words = qemu_words(list(map(disk, bank_image(room, name))), WORDS)
        for kill in range(kills):
            told = max(told, killed_run(words, f"{room}/log", rng))
            transfers, total = found_in(ran(words)[0])
            if transfers == 0:
                total = total or FIRST_SUM  # before the first msync there is no bank
            tally.check(f"{name}, kill {kill}: sum, whole msyncs, none lost", (total, transfers % 10, transfers >= told), (FIRST_SUM, 0, True))
            told = max(told, transfers)
    print(f"{name}: {kills} kills")


def try_kills(tally, kills, seed):
    rng = random.Random(seed)
    for k, name in enumerate(GATES):
        kill_again(tally, name, (kills + k) // len(GATES), rng)
