"""Hardware that the kernel has to refuse; a disk that fails once, as an msync opens or names its journal, or as a page is read back; and the page of zeros, which nothing may
store to."""
import os
import re
import subprocess
import sys
import tempfile

HERE = os.path.dirname(os.path.abspath(__file__))
sys.path[:0] = [os.path.dirname(HERE)]
from emulator import CPU, MMU, built, compiled, disk, failing_disk, make_image, make_kernel, make_swap, pagefmt, qemu_words

SECONDS = 300
WORDS = ["pagemmu", 1, 64, 64, "sv39"]
REFUSALS = {
    "accessed and dirty bits of its own": ("rv64,h=true,svade=off,svadu=on", "", "kernel: this processor sets the accessed"),
    "no hypervisor extension": ("rv64,h=false,svade=on", "", "kernel: this processor has no hypervisor"),
    "a disk without flush": (CPU, ",config-wce=off,write-cache=off", "kernel: this disk offers no flush"),
}
SLOT = 5  # QEMU itself reads the first sector of a disk
GATES = {"new": 2, "new4": 8}  # sectors
FOUND = re.compile(r"^found transfers (\d+), sum (\d+)$", re.M)


def ran(words):
    """What QEMU prints, and its status."""
    done = subprocess.run(words, stdin=subprocess.DEVNULL, stdout=subprocess.PIPE, stderr=subprocess.STDOUT, text=True, timeout=SECONDS)
    return done.stdout.replace("\r", ""), done.returncode


def bank_image(room, verb):
    """An image whose first program is `bank`, and a swap device."""
    image, swap = f"{room}/image", f"{room}/swap"
    make_image(image, [compiled(f"{MMU}/user/bank.c", room)], verb)
    make_swap(swap, 64)
    return image, swap


def content(path):
    with open(path, "rb") as file:
        return file.read()


def try_refusals(tally):
    """The kernel says so, and stops before a program begins."""
    with tempfile.TemporaryDirectory() as room:
        image, swap = bank_image(room, "new")
        before = content(image)
        for name, (cpu, device, line) in REFUSALS.items():
            text, status = ran(qemu_words([disk(image), disk(swap)], WORDS, "kernel", cpu, device))
            tally.check(name, (line in text, "found" in text, status, content(image) == before), (True, False, 2, True))


def found_in(text):
    """The transfers that `bank` found, and their sum; -1 each where it found none."""
    found = FOUND.search(text)
    return tuple(map(int, found.groups())) if found else (-1, -1)


def settle(room, image, verb):
    """Makes the image anew of its files: none of its pages stands in a journal or a slot, so that no opening writes the gate."""
    with open(f"{room}/bytes", "wb") as file:
        subprocess.run([built(["pagecat"]).path("pagecat"), image, "1"], stdout=file, check=True)
    os.remove(image)
    pagefmt(verb, image, [f"ro:{room}/bank", f"rw:{room}/bytes"])


def try_failing_gate(tally):
    """An msync whose write of the gate fails returns EIO, and the kernel says so; the next run finds what was durable, and goes on. The image is settled first, so that the first write
    of the gate is an msync's."""
    for verb, gate in GATES.items():
        with tempfile.TemporaryDirectory() as room:
            image, swap = bank_image(room, verb)
            whole = [disk(image), disk(swap)]
            tally.check(f"{verb}: a run", ran(qemu_words(whole, WORDS))[1], 0)
            settle(room, image, verb)
            text, status = ran(qemu_words([failing_disk(image, f"iotype=write,sector={gate}"), disk(swap)], WORDS))
            tally.check(f"{verb}: the gate's write fails", ("msync: error 5\nkernel: an msync failed" in text, "durable" in text, found_in(text), status), (True, False, (500, 1000000), 3))
            text, status = ran(qemu_words(whole, WORDS))
            tally.check(f"{verb}: after it", (found_in(text), "durable 1000\n" in text, status), ((500, 1000000), True, 0))


def of_pages(room, swap, kernel="kernel"):
    """What a run of `pages` in few frames prints, and its status."""
    make_image(f"{room}/image", [compiled(f"{MMU}/user/pages.c", room)])
    make_swap(f"{room}/swap", 400)
    return ran(qemu_words([disk(f"{room}/image"), swap(f"{room}/swap")], ["pagemmu", 1, 64, 400, "sv39"], kernel))


def try_failing_swap(tally):
    """A process whose page can't be read back ends, and the kernel says that a device failed, not that memory is short."""
    with tempfile.TemporaryDirectory() as room:
        text, status = of_pages(room, lambda path: failing_disk(path, f"iotype=read,sector={SLOT * 8}"))
        tally.check("swap fails once", ("ended: load fault (cause 13)" in text, ", a device failed\n" in text, status), (True, True, 135))


def try_page_of_zeros(tally):
    """A pager that lets it be stored to stops the kernel: the second stage does not."""
    with tempfile.TemporaryDirectory() as room:
        text, status = of_pages(room, disk, make_kernel("wrong_zeros"))
        tally.check("the page of zeros", ("lets the page of zeros be written" in text, "wrong numbers" in text, status), (True, False, 2))


def try_devices(tally):
    try_refusals(tally)
    try_failing_gate(tally)
    try_failing_swap(tally)
    try_page_of_zeros(tally)
