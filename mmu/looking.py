"""A run of programs as a trace: the requests that the kernel's variant `logging` made, as lines that pagelook takes. Bytes that hardware stored by itself are not in them: tables, frames
and slots of the trace are those of the run, and its bytes are not, but for those that were touched."""
import re

from tracing import DONTNEED, FETCH, LOAD, MMAP, MPROTECT, MSYNC, MSYNC_ASYNC, MUNMAP, PERMISSIONS, PLACINGS, RANGED, SOURCES, SPAWN, TOUCH, TRUNCATE, reply_text

LOGGED = re.compile(r"\x01([0-9 ]+)\r?\n")
NAMES = {number: name for name, number in RANGED.items()}
STORE_FAULT, FAULT = 15, 4
BYTE = "1"  # the width of a touch


def permission_word(number):
    return "".join(name if number & bit else "-" for name, bit in PERMISSIONS.items())


def mapping_words(numbers):
    _, pid, addr, length, prot, source, file, offset, placing = numbers
    words = ["mmap", pid, hex(addr), length, permission_word(prot), SOURCES[source]]
    words += [file, offset] if SOURCES[source] in ("private", "shared") else []
    return words + ([PLACINGS[placing]] if placing else [])


def words_of(numbers):
    """The words of a request that is one command."""
    kind, pid, addr, length, prot, _, value, *_ = numbers
    if kind == SPAWN:
        return ["spawn"]
    if kind == MMAP:
        return mapping_words(numbers)
    ranged = [pid, hex(addr), length]
    return {
        MPROTECT: ["mprotect", *ranged, permission_word(prot)],
        MSYNC: ["msync", *ranged, "sync"],
        MSYNC_ASYNC: ["msync", *ranged, "async"],
        LOAD: ["load", *ranged],
        FETCH: ["fetch", pid, hex(addr)],
        TRUNCATE: ["truncate", value, length],
    }.get(kind) or [NAMES[kind], *(ranged if kind in (MUNMAP, DONTNEED) else [pid])]


def steps_of(request, reply, byte):
    """The lines of a request, each with the reply that it had, or none where that is not told. What is no request has none."""
    kind, pid, addr = request[:3]
    if reply[0] > FAULT + 2:
        return []
    if kind != TOUCH:
        return [(" ".join(map(str, words_of(request))), None if kind in (LOAD, FETCH) and reply[0] == 3 else reply_text(NAMES.get(kind, ""), reply))]
    load, store = f"load {pid} {addr:#x} {BYTE}", f"store {pid} {addr:#x} {BYTE} {byte}"
    if reply[0] == FAULT and reply[1] != STORE_FAULT:
        return [(load, reply_text("load", reply))]
    return [(load, None), (store, reply_text("store", reply))]


def logged(text):
    """The requests of a run, their replies, and the bytes that were touched."""
    for numbers in LOGGED.findall(text):
        *numbers, byte = map(int, numbers.split())
        yield numbers[:9], numbers[9:], byte


def steps(text):
    """The lines of a run, of what the kernel printed, each with its reply or none."""
    return [step for request, reply, byte in logged(text) for step in steps_of(request, reply, byte)]
