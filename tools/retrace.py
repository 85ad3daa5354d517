"""Turns what lackey.py read of a command into a trace: lines that spawn, fork, map, load, store and fetch as its processes did.

A file gets a number when it is first mapped. A process is given turns of so many accesses from its fork on, since nothing tells the order between processes. What a
trace can't have, as an access of a page that no mapping was seen for, is counted and left out, so that no line of a trace faults.
"""
import bisect
import os
import re
from collections import Counter
from typing import NamedTuple

from lackey import FETCH, LOAD, PAGE, STORE, Access, events

FIRST, END = 0x10, 0x4000000  # the user's pages, of Sv39
PROCESSES, FILES = 64, 64
WHOLE = f"0x{FIRST * PAGE:x} 0x{(END - FIRST) * PAGE:x}"
SHARED, ANONYMOUS = 1, 0x20  # flags of mmap; SHARED is the kind's lowest bit
DONTNEED, MS_SYNC, MAYMOVE_OR_FIXED = 4, 4, 3
DUPFD = (0, 1030)  # fcntl's commands that make a descriptor
OPEN = re.compile(r"0x[0-9a-f]+\((.*)\), (\d+)(?:, \d+)?$")


class Ended(Exception):
    """The trace has as many lines as it may."""


class Mapped(NamedTuple):
    """A file that was opened: its path, and whether it may be written."""

    path: str
    is_writable: bool


def numbers(words):
    """The arguments of a call; 0 for one that is no number."""
    found = (re.match(r"(?:0x[0-9a-f]+|\d+)", it.strip()) for it in words.split(","))
    return [int(it[0], 0) if it else 0 for it in found]


def pages(length):
    """How many pages so many bytes take."""
    return (length + PAGE - 1) // PAGE


def rights_of(bits):
    return "".join(letter if bits & bit else "-" for letter, bit in (("r", 1), ("w", 2), ("x", 4)))


class Space:
    """The mapped pages of a process: where runs begin and end, and their rights."""

    def __init__(self, runs=()):
        self.runs = list(runs)  # (first, end, rights), in order, none over another

    def clear(self, first, end):
        """Takes the runs of these pages out, and gives them."""
        at = max(bisect.bisect_right(self.runs, (first, END + 1, "")) - 1, 0)
        while at < len(self.runs) and self.runs[at][1] <= first:
            at += 1
        stop = at
        while stop < len(self.runs) and self.runs[stop][0] < end:
            stop += 1
        taken = self.runs[at:stop]
        left = [(a, first, rights) for a, _, rights in taken[:1] if a < first] + [(end, b, rights) for _, b, rights in taken[-1:] if b > end]
        self.runs[at:stop] = left
        return [(max(a, first), min(b, end), rights) for a, b, rights in taken]

    def put(self, first, end, rights):
        self.clear(first, end)
        bisect.insort(self.runs, (first, end, rights))

    def covers(self, first, end):
        """Whether each of these pages is mapped."""
        at = max(bisect.bisect_right(self.runs, (first, END + 1, "")) - 1, 0)
        for a, b, _ in self.runs[at:]:
            if a > first or first >= end:
                break
            first = max(first, b)
        return first >= end

    def rights(self, page):
        """The rights of a page; none where it isn't mapped."""
        at = bisect.bisect_right(self.runs, (page, END + 1, "")) - 1
        return self.runs[at][2] if at >= 0 and self.runs[at][1] > page else ""


class Files:
    """The files of a trace, in the order of their numbers."""

    def __init__(self):
        self.known, self.numbers = [], {}

    def number(self, file):
        """A file's number; None for one that is no regular file, or one too many."""
        if file.path not in self.numbers:
            if len(self.known) == FILES or not os.path.isfile(file.path):
                return None
            self.numbers[file.path] = len(self.known)
            self.known.append(file)
        number = self.numbers[file.path]
        if file.is_writable:
            self.known[number] = file
        return number

    def length(self, number):
        return os.path.getsize(self.known[number].path)


class Trace:
    """The lines, as they are written; the files; and what is left out."""

    def __init__(self, out, most, has_all):
        self.out, self.most, self.has_all = out, most, has_all
        self.lines, self.files = Counter(), Files()
        self.left_out, self.value = Counter(), 0
        self.free, self.processes = list(range(1, PROCESSES + 1)), 0

    def emit(self, text):
        if sum(self.lines.values()) == self.most:
            raise Ended
        self.out.write(f"{text}\n")
        self.lines[text.partition(" ")[0]] += 1

    def next_value(self, length):
        """A made-up number of so many bytes, since nothing tells what was stored."""
        self.value = (self.value * 6364136223846793005 + 1442695040888963407) % 2**64
        return self.value >> 64 - 8 * length

    def begin(self, text):
        """Begins a process by a line, and gives its number."""
        self.emit(text)
        self.processes += 1
        return self.free.pop(0)

    def end(self, number):
        self.emit(f"exit {number}")
        bisect.insort(self.free, number)


def parts(at, length):
    """Aligned places and lengths of 1 to 8 bytes that are these bytes together."""
    end = at + length
    while at < end:
        size = 8
        while at % size or at + size > end:
            size //= 2
        yield at, size
        at += size


class Process:
    """A process of the trace: its number, its space and its descriptors."""

    def __init__(self, trace, number, space, opened, folder):
        self.trace, self.number, self.space, self.opened, self.folder = trace, number, space, dict(opened), folder
        self.page = self.end_of_heap = None

    def fork(self, text):
        """A child, by a line of the trace."""
        child = Process(self.trace, self.trace.begin(text), Space(self.space.runs), self.opened, self.folder)
        child.end_of_heap = self.end_of_heap
        return child

    # Accesses

    def access(self, event):
        """The lines of an access, and whether there are any."""
        letters = ["r"] * bool(event.kind & LOAD) + ["w"] * bool(event.kind & STORE) + ["x"] * bool(event.kind & FETCH)
        for page in range(event.at // PAGE, (event.at + event.length - 1) // PAGE + 1):
            if not self.allows(page, letters):
                self.trace.left_out["accesses of pages that no mapping was seen for"] += 1
                return False
        if event.kind == FETCH:
            return self.fetch(event)
        for at, size in parts(event.at, event.length):
            if event.kind & LOAD:
                self.trace.emit(f"load {self.number} 0x{at:x} {size}")
            if event.kind & STORE:
                self.trace.emit(f"store {self.number} 0x{at:x} {size} 0x{self.trace.next_value(size):x}")
        return True

    def allows(self, page, letters):
        rights = self.space.rights(page)
        return all(it in rights for it in letters)

    def fetch(self, event):
        """Fetches of one page after the other are one, but where all are asked for."""
        found = False
        for page in range(event.at // PAGE, (event.at + event.length - 1) // PAGE + 1):
            if self.trace.has_all or page != self.page:
                self.trace.emit(f"fetch {self.number} 0x{max(event.at & ~3, page * PAGE):x}")
                found = True
            self.page = page
        return found

    # Mappings

    def map(self, first, count, rights, backing):
        """Maps pages, those of them that are a user's."""
        low, high = max(first, FIRST), min(first + count, END)
        if low >= high:
            return
        if low != first or high != first + count:
            self.trace.left_out["pages beyond those of a user"] += count - (high - low)
        if backing.startswith(("private", "shared")) and low != first:
            return
        self.trace.emit(f"mmap {self.number} 0x{low * PAGE:x} {(high - low) * PAGE} {rights} {backing} fixed")
        self.space.put(low, high, rights)

    def backing(self, file, offset, is_shared):
        """How pages of a file, or of none, are mapped; what can't be a file of the trace is memory."""
        number = None if file is None else self.trace.files.number(file)
        if number is not None:
            return f"{'shared' if is_shared else 'private'} {number} 0x{offset:x}"
        if file is not None:
            self.trace.left_out[f"the bytes of {file.path}"] += 1
        return "common" if is_shared else "anon"

    def begin_program(self, segments):
        """Maps what was mapped as the program began. Of a file, pages past its end are none of the trace."""
        if self.space.runs:
            self.trace.emit(f"munmap {self.number} {WHOLE}")
        self.space, self.page, self.end_of_heap = Space(), None, None
        for it in segments:
            file = None if it.path is None else Mapped(it.path, False)
            self.map(it.first, it.end - it.first, it.rights, self.backing(file, it.offset, False))

    # System calls

    def call(self, event):
        """What a system call changes."""
        change = getattr(self, f"on_{event.name}", None)
        if change:
            change(event)

    def on_openat(self, event):
        found = OPEN.search(event.words)
        if found:
            self.opened[event.result] = Mapped(os.path.normpath(os.path.join(self.folder, found[1])), int(found[2]) & 3 == 2)

    on_open = on_openat

    def on_close(self, event):
        self.opened.pop(numbers(event.words)[0], None)

    def on_dup(self, event):
        """A descriptor that is another one's copy."""
        file = self.opened.get(numbers(event.words)[0])
        self.opened.pop(event.result, None)
        if file is not None:
            self.opened[event.result] = file

    on_dup2 = on_dup3 = on_dup

    def on_fcntl(self, event):
        if numbers(event.words)[1] in DUPFD:
            self.on_dup(event)

    def on_mmap(self, event):
        _, length, prot, flags, fd, offset = numbers(event.words)[:6]
        is_shared = flags & 3 != 2
        file = None if flags & ANONYMOUS else self.opened.get(fd)
        if file is not None and not is_shared:
            file = file._replace(is_writable=False)
        self.map(event.result // PAGE, pages(length), rights_of(prot), self.backing(file, offset, is_shared))

    def on_brk(self, event):
        """The heap grows or shrinks by whole pages. The first call says where it begins."""
        end = pages(event.result)
        if self.end_of_heap is not None and end > self.end_of_heap:
            self.map(self.end_of_heap, end - self.end_of_heap, "rw-", "anon")
        elif self.end_of_heap is not None and end < self.end_of_heap:
            self.unmap(end, self.end_of_heap - end)
        self.end_of_heap = end

    def unmap(self, first, count):
        low, high = max(first, FIRST), min(first + count, END)
        if low < high:
            self.trace.emit(f"munmap {self.number} 0x{low * PAGE:x} {(high - low) * PAGE}")
            self.space.clear(low, high)

    def on_munmap(self, event):
        at, length = numbers(event.words)[:2]
        self.unmap(at // PAGE, pages(length))

    def on_mremap(self, event):
        """New pages in the place of those that were moved: their bytes are not brought along."""
        at, old, new = numbers(event.words)[:3]
        first, there = at // PAGE, event.result // PAGE
        rights = self.space.rights(first) or "rw-"
        if there != first:
            self.unmap(first, pages(old))
            self.map(there, pages(new), rights, "anon")
        elif new > old:
            self.map(there + pages(old), pages(new) - pages(old), rights, "anon")
        else:
            self.unmap(there + pages(new), pages(old) - pages(new))
        self.trace.left_out["bytes that mremap moved"] += there != first

    def ranged(self, at, length):
        """The pages of a call that wants them mapped; None, and it is left out, where they are not."""
        first, count = at // PAGE, pages(length)
        if count and FIRST <= first and first + count <= END and self.space.covers(first, first + count):
            return first, count
        self.trace.left_out["calls on pages that no mapping was seen for"] += 1
        return None

    def on_mprotect(self, event):
        at, length, prot = numbers(event.words)[:3]
        found = self.ranged(at, length)
        if found:
            first, count = found
            self.trace.emit(f"mprotect {self.number} 0x{at:x} {count * PAGE} {rights_of(prot)}")
            self.space.put(first, first + count, rights_of(prot))

    def on_madvise(self, event):
        at, length, advice = numbers(event.words)[:3]
        if advice == DONTNEED and self.ranged(at, length):
            self.trace.emit(f"dontneed {self.number} 0x{at:x} {pages(length) * PAGE}")

    def on_msync(self, event):
        at, length, flags = numbers(event.words)[:3]
        if self.ranged(at, length):
            self.trace.emit(f"msync {self.number} 0x{at:x} {pages(length) * PAGE} {'sync' if flags & MS_SYNC else 'async'}")


class Play:
    """The processes of a command, which take turns."""

    def __init__(self, trace, capture_logs, layouts, folder, quantum):
        self.trace, self.folder, self.quantum, self.queue = trace, folder, quantum, []
        self.logs = {}
        for log in capture_logs:
            self.logs.setdefault(log.pid, []).append(log)
        self.layouts = layouts
        self.first = capture_logs[0].pid

    def programs(self, pid):
        """The logs of a process, each with what was mapped as its program began; None for a log before any exec, or of the one that exec did not end."""
        logs, layouts = self.logs.get(pid, []), self.layouts.get(pid, [])
        return zip(logs, [None] * (len(logs) - len(layouts)) + layouts)

    def run_process(self, process, pid):
        """Writes the lines of a process; gives way after each access."""
        for log, layout in self.programs(pid):
            if layout is not None:
                process.begin_program(layout)
            for event in events(log):
                if isinstance(event, Access):
                    if process.access(event):
                        yield
                elif event.name == "fork":
                    self.fork(process, event.result)
                else:
                    process.call(event)
        self.trace.end(process.number)

    def fork(self, process, pid):
        """A child begins, where the trace may have one more process."""
        if pid not in self.logs or not self.trace.free:
            self.trace.left_out["processes"] += 1
            return
        child = process.fork(f"fork {process.number}")
        self.queue.append(self.run_process(child, pid))

    def run(self):
        """Writes the trace."""
        process = Process(self.trace, self.trace.begin("spawn"), Space(), {}, self.folder)
        self.queue = [self.run_process(process, self.first)]
        try:
            while self.queue:
                playing = self.queue.pop(0)
                if sum(1 for _ in zip(range(self.quantum), playing)) == self.quantum:
                    self.queue.append(playing)
        except Ended:
            self.trace.left_out["what came after as many lines as were asked for"] += 1
