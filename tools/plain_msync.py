"""plain_msync.py FILE: carries out lines as those of tools/kills by the host's mmap and msync of FILE, which is mapped at 0x10000, and replies as pagerun does: the control of tools/kills."""
import mmap
import sys

START = 0x10000


def reply_to(memory, name, words):
    """Carries out a line, and returns its reply."""
    if name == "spawn":
        return "pid 1"
    if name == "mmap":
        return f"addr {int(words[1]):#x}"
    if name == "store":
        at = int(words[1]) - START
        memory[at:at + 8] = int(words[3]).to_bytes(8, "little")
    else:
        memory.flush()
    return "ok"


with open(sys.argv[1], "r+b") as mapped, mmap.mmap(mapped.fileno(), 0) as whole:
    for line in sys.stdin:
        first, *rest = line.split()
        print(reply_to(whole, first, rest), flush=True)
