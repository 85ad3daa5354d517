"""Traces by hardware: lines as pagerun takes them, made requests for the kernel's variant `tracer`, and its replies made lines. A load, a store or a fetch that hardware lets
through is hardware's, and all else is the pager's.

What the pager can't be asked for is told here: a bad line, and the history of faults. And it is asked whether a store may be made, a touch, which is a load first. So a
store's fault is the load's, with the cause of a store, where there is one: of a page that may not be stored to, and lies past its file's end, a BUS_ADRERR.
"""
import os
import struct
import subprocess
import sys
import tempfile
from collections import deque

HERE = os.path.dirname(os.path.abspath(__file__))
sys.path[:0] = [HERE, f"{os.path.dirname(HERE)}/bench"]
from emulator import disk, qemu_words
from flat_model import MOST_FAULTS, NOFRAMES, NOSWAP, NUMBERS, STOREDEV, SWAPDEV, Model, command_of

RECORD, SECTOR = 128, 512  # bytes
SPAWN, FORK, EXIT, MMAP, MUNMAP, MPROTECT, DONTNEED, MSYNC, MSYNC_ASYNC, LOAD, FETCH, TOUCH, TRUNCATE, STORE, END = range(15)
RANGED = {"munmap": MUNMAP, "dontneed": DONTNEED, "fork": FORK, "exit": EXIT, "fetch": FETCH, "spawn": SPAWN}
SOURCES = ("anon", "common", "private", "shared")
PLACINGS = (None, "fixed", "noreplace")
PERMISSIONS = {"r": 1, "w": 2, "x": 4}
CODES = ("BUS_ADRALN", "SEGV_MAPERR", "SEGV_ACCERR", "BUS_ADRERR")
STALLS = {int(it.split()[1]): it for it in (NOFRAMES, NOSWAP, SWAPDEV, STOREDEV)}
ERRORS = {number: f"error {number} {name}" for name, number in NUMBERS.items()}
SECONDS = 300  # that a trace may take
STOPPED = 2  # QEMU's status where the kernel stopped
STORE_CAUSES = {"4": "6", "13": "15"}  # of loads


class TouchingModel(Model):
    """The flat model, in which a store faults as the load before it does. That load may stall where the store would fault: so it takes the replies to the commands that come."""

    def __init__(self, files, coming=(), of_model=()):
        super().__init__(files, *of_model)
        self.coming = iter(coming)

    def answer(self, command):
        reply = next(self.coming, "")
        wanted, effect = super().answer(command)
        is_load_open = command[0] == "store" and wanted.startswith("fault") and self.load(*command[1:3], 1)[0].startswith("value")
        return ("ok", None) if is_load_open and reply.startswith("stall") else (wanted, effect)

    def fault_of(self, space, kind, addr, width):
        found = super().fault_of(space, "load", addr, width) if kind == "store" else None
        return of_store(found) if found else super().fault_of(space, kind, addr, width)


def of_store(fault):
    """The fault of a store of which a touch, or its load, has this one."""
    cause, rest = fault.split(" ", 1)
    return f"{STORE_CAUSES.get(cause, cause)} {rest}"


def permission_number(prot):
    return sum(PERMISSIONS[it] for it in prot)


def numbers_of(name, words):
    """The numbers of a request: its kind, a process, an address, a length, a permission, a source, a value, an offset and a placing, as far as it has some."""
    if name == "mmap":
        pid, addr, length, prot, source, file, offset, mode = words
        return [MMAP, pid, addr, length, permission_number(prot), SOURCES.index(source), file, offset, PLACINGS.index(mode)]
    if name == "mprotect":
        return [MPROTECT, *words[:3], permission_number(words[3])]
    if name == "msync":
        return [MSYNC_ASYNC if words[3] else MSYNC, *words[:3]]
    if name == "load":
        return [LOAD, *words]
    if name == "truncate":
        file, length = words
        return [TRUNCATE, 0, 0, length, 0, 0, file]
    if name == "store":
        return [STORE, *words[:3], 0, 0, words[3]]
    return [RANGED[name], *words]


def record_of(numbers):
    return struct.pack("<16Q", *numbers, *[0] * (16 - len(numbers)))


def requests(lines):
    """The records of the lines that have some, and the end: whole sectors."""
    commands = filter(None, map(command_of, lines))
    made = b"".join(record_of(numbers_of(name, words)) for name, *words in commands if name != "faults") + record_of([END])
    return made + bytes(-len(made) % SECTOR)


def reply_text(name, numbers):
    """The text of a reply to a command."""
    kind, first, second, third = numbers
    if kind == 4:
        fault = f"{first} {CODES[second]} {third:#x}"
        return f"fault {of_store(fault) if name == 'store' else fault}"
    if kind == 3:
        return f"value {first:#0{2 + 2 * second}x}"
    return {0: f"pid {first}", 1: f"addr {first:#x}", 2: "ok", 5: ERRORS.get(first), 6: STALLS.get(first)}.get(kind, f"no reply of kind {kind}")


def replies(lines, records):
    """The reply to each line, by what came back for those that have a record."""
    past, at, texts = deque(maxlen=MOST_FAULTS), 0, []
    for line in lines:
        command = command_of(line)
        if command is None or command[0] == "faults":
            texts.append("\n".join([f"faults {len(past)}", *past]) if command else "bad line")
            continue
        text = reply_text(command[0], struct.unpack_from("<4Q", records, at))
        at += RECORD
        texts.append(text)
        if text.startswith("fault "):
            past.append(f"past {command[1]} {text.removeprefix('fault ')}")
    return texts


def of_kernel(disks, sizes, kernel):
    """QEMU's words for a trace."""
    return qemu_words(list(map(disk, disks)), ["pagemmu", 0, *sizes], kernel)


def of_linux(disks, sizes, program):
    """The words for a trace on the pager as a program of Linux."""
    return ["qemu-riscv64", f"{HERE}/out/{program}", *disks, *map(str, sizes)]


def traced(lines, disks, sizes, run=(of_kernel, "tracer")):
    """The replies to lines on an image and a swap device, whose machine has these frames, slots and this mode; what was told; and the exit status."""
    words_of, name = run
    with tempfile.NamedTemporaryFile() as file:
        file.write(requests(lines))
        file.flush()
        done = subprocess.run(words_of((*disks, file.name), sizes, name), stdin=subprocess.DEVNULL, stdout=subprocess.PIPE, text=True, errors="replace", timeout=SECONDS)
        file.seek(0)
        records = file.read()
    told = [it for it in done.stdout.splitlines() if it.startswith("kernel: ")]
    return replies(lines, records) if done.returncode < STOPPED else [], told, done.returncode
