"""The flat model, written apart, sharing no code: the replies to a trace's lines, and what is durable. Written from docs/THEOREM.md and
docs/FORMATS.md alone. Processes are maps from page to view, and files rows of bytes."""
import re
from collections import deque
from dataclasses import dataclass, replace
from typing import NamedTuple, Optional

PAGE = 4096
USER_START, USER_END = 16, 1 << 26
MOST_PROCESSES, MOST_RUNS, MOST_PAGES, MOST_FAULTS = 64, 256, 1023, 16
LONGEST_FILE = 1 << 42
NUMBERS = {"ESRCH": 3, "EIO": 5, "EBADF": 9, "EAGAIN": 11, "ENOMEM": 12, "EACCES": 13, "EEXIST": 17, "EINVAL": 22, "EFBIG": 27, "ENOSPC": 28,
           "EOVERFLOW": 75}
MISALIGNED = {"load": 4, "store": 6, "fetch": 0}
PAGE_FAULT = {"load": 13, "store": 15, "fetch": 12}
NEEDED = {"load": "r", "store": "w", "fetch": "x"}
NOFRAMES, NOSWAP, SWAPDEV, STOREDEV = "stall 1 NOFRAMES", "stall 2 NOSWAP", "stall 3 SWAPDEV", "stall 4 STOREDEV"
# what wants a frame may ask the swap device for it, and an access reads the store too
FRAMED = (NOFRAMES, NOSWAP, SWAPDEV)
STALLS = {"spawn": FRAMED, "fork": FRAMED, **{name: (*FRAMED, STOREDEV) for name in NEEDED}}
ZEROS = bytes(PAGE)


class Backing(NamedTuple):
    kind: str  # anon, private, shared or common
    number: int = 0  # of the file, or of the object of a common page
    page: int = 0

    def is_of_file(self):
        return self.kind in ("private", "shared")

    def following(self, count):
        return self if self.kind == "anon" else self._replace(page=self.page + count)


@dataclass(frozen=True)
class View:
    prot: frozenset
    backing: Backing
    own: Optional[bytes] = None


@dataclass
class File:
    """A file: its length and pages as processes see them, and as they are durable. A page that isn't there is zeros."""

    read_only: bool
    length: int
    volatile: dict
    durable: dict
    durable_length: int
    resized: bool = False  # since its length was made durable
    shortest: int = 0  # since then

    @staticmethod
    def new(read_only, content):
        pages = {i // PAGE: content[i:i + PAGE].ljust(PAGE, b"\0") for i in range(0, len(content), PAGE)}
        return File(read_only, len(content), pages, dict(pages), len(content), shortest=len(content))

    def page(self, number):
        return self.volatile.get(number, ZEROS)

    def trimmed(self, page):
        return cut(self.page(page), self.length - PAGE * page)

    def held(self):
        """The bytes that are durable."""
        return b"".join(self.durable.get(page, ZEROS) for page in range(page_count(self.durable_length)))[:self.durable_length]

    def resize(self, length):
        """Gives it another length. What lies behind the shorter one of both is zeros when it is seen again."""
        low = min(self.length, length)
        self.volatile = {page: cut(content, low - PAGE * page) for page, content in self.volatile.items() if PAGE * page < low}
        self.length, self.resized, self.shortest = length, True, min(self.shortest, length)

    def commit(self, pages):
        """Makes these pages durable, and where it got another length the whole file with it."""
        for page in pages:
            self.durable[page] = self.volatile[page] = self.trimmed(page)
        if self.resized:
            self.durable = {page: self.trimmed(page) for page in self.volatile if PAGE * page < self.length}
            self.durable_length, self.resized, self.shortest = self.length, False, self.length


def cut(content, count):
    """A page with zeros from that byte on."""
    return content[:max(0, count)].ljust(PAGE, b"\0")


def page_count(length):
    """How many pages hold so many bytes."""
    return -(-length // PAGE)


def error(name):
    return f"error {NUMBERS[name]} {name}"


def pages_of(addr, length):
    """The pages of an address range, as whole numbers."""
    return range(addr // PAGE, -(-(addr + length) // PAGE))


def runs(space):
    """How many rows of pages with one permission, whose backings follow one another."""
    count, last = 0, None
    for page in sorted(space):
        view = space[page]
        goes_on = (last is not None and page == last + 1 and space[last].prot == view.prot
                   and space[last].backing.following(1) == view.backing)
        count, last = count + (not goes_on), page
    return count


def is_covered(space, pages):
    return len(pages) <= len(space) and all(page in space for page in pages)


def without(space, pages):
    """A space but for these pages."""
    gone = set(within(space, pages))
    return {page: view for page, view in space.items() if page not in gone}


def with_row(space, pages, prot, backing):
    """A space with a new mapping of these pages."""
    return {**space, **{page: View(prot, backing.following(k)) for k, page in enumerate(pages)}}


def within(space, pages):
    """The pages of a range that are mapped, without a look at each of a long range."""
    return [page for page in (pages if len(pages) <= len(space) else sorted(space)) if page in pages and page in space]


def open_stalls(model, command, effect):
    """The stalls that are open to a command which would succeed; an msync asks the swap device where it has pages to make durable, and a truncate wants a frame
    where the shorter one of both lengths ends within a page, which it reads from the image only where the file gets longer."""
    if command[0] == "msync":
        return (SWAPDEV,) if effect else ()
    if command[0] == "truncate":
        was, length = model.files[command[1]].length, command[2]
        return () if not effect or min(was, length) % PAGE == 0 else (*FRAMED, STOREDEV) if was < length else FRAMED
    return STALLS.get(command[0], ())


class Model:
    """A state of the flat model, and what each command does to it. Of an object it has the pages that were stored to, as long as they are named. One msync takes
    `most` pages, and files get other lengths where the store `resizes`, as one of layout 4."""

    def __init__(self, files, most=MOST_PAGES, resizes=False):
        self.files, self.most, self.resizes = files, most, resizes
        self.spaces = {}
        self.objects = {}
        self.touched = set()
        self.past = deque(maxlen=MOST_FAULTS)

    def durable(self):
        return [file.held() for file in self.files]

    def answer(self, command):
        """The reply, and what is to be called where the command is carried out."""
        name, *words = command
        return getattr(self, name)(*words)

    # what it needs

    def tables(self):
        """The page tables of all processes: a root, and one for each 2^18 and each 2^9 pages with a mapped one."""
        return sum(1 + len({page >> 18 for page in space}) + len({page >> 9 for page in space}) for space in self.spaces.values())

    def held(self):
        """The pages that only memory or swap can hold: own copies, touched file pages, and pages of objects."""
        own = sum(view.own is not None for space in self.spaces.values() for view in space.values())
        return own + len(self.touched) + len(self.objects)

    # processes

    def free_pid(self):
        return next((pid for pid in range(1, MOST_PROCESSES + 1) if pid not in self.spaces), None)

    def spawn(self):
        pid = self.free_pid()
        if pid is None:
            return error("EAGAIN"), None
        return f"pid {pid}", lambda: self.spaces.update({pid: {}})

    def fork(self, parent):
        if parent not in self.spaces:
            return error("ESRCH"), None
        child = self.free_pid()
        if child is None:
            return error("EAGAIN"), None
        return f"pid {child}", lambda: self.spaces.update({child: dict(self.spaces[parent])})

    def exit(self, pid):
        if pid not in self.spaces:
            return error("ESRCH"), None
        return "ok", lambda: self.leave(pid)

    def leave(self, pid):
        self.spaces.pop(pid)
        self.drop_unnamed()

    # ranges

    def named(self):
        """The pages of objects that a page of a process names."""
        backings = (view.backing for space in self.spaces.values() for view in space.values())
        return {(backing.number, backing.page) for backing in backings if backing.kind == "common"}

    def drop_unnamed(self):
        """Lets go of the pages of objects that no page names."""
        if self.objects:
            named = self.named()
            self.objects = {key: content for key, content in self.objects.items() if key in named}

    def take_out(self, pid, after):
        """Leaves a process the pages of `after`, which are some of those that it has."""
        self.spaces[pid] = after
        self.drop_unnamed()

    def put_in(self, pid, pages, prot, backing):
        """Maps pages, in the place of those that are there. A common mapping takes the least object that no page names then."""
        self.take_out(pid, without(self.spaces[pid], pages))
        if backing.kind == "common":
            used = {number for number, _ in self.named()}
            backing = backing._replace(number=next(number for number in range(len(used) + 1) if number not in used))
        self.spaces[pid] = with_row(self.spaces[pid], pages, prot, backing)

    def place(self, space, addr, count, is_exact):
        """The first page of a new mapping, or none."""
        first = addr // PAGE
        fits = USER_START <= first and first + count <= USER_END
        if is_exact:
            return first if fits else None
        if addr != 0 and fits and not within(space, range(first, first + count)):
            return first
        start = USER_START
        for page in sorted(space):
            if page - start >= count:
                break
            start = page + 1
        return start if start + count <= USER_END else None

    def mmap(self, pid, addr, length, prot, kind, file, offset, mode):
        space = self.spaces.get(pid)
        count = -(-length // PAGE)
        is_file = kind in ("private", "shared")
        if space is None:
            return error("ESRCH"), None
        if length == 0 or (mode and addr % PAGE) or (is_file and offset % PAGE):
            return error("EINVAL"), None
        if is_file and file >= len(self.files):
            return error("EBADF"), None
        if kind == "shared" and "w" in prot and self.files[file].read_only:
            return error("EACCES"), None
        if is_file and offset // PAGE + count > 1 << 32:
            return error("EOVERFLOW"), None
        first = self.place(space, addr, count, bool(mode))
        if first is None:
            return error("ENOMEM"), None
        if mode == "noreplace" and within(space, range(first, first + count)):
            return error("EEXIST"), None
        pages, backing = range(first, first + count), Backing(kind, file, offset // PAGE)
        # a common mapping is of an object of its own, and so follows no other
        apart = backing._replace(number=-1) if kind == "common" else backing
        if runs(with_row(space, pages, prot, apart)) > MOST_RUNS:
            return error("ENOMEM"), None
        return f"addr {PAGE * first:#x}", lambda: self.put_in(pid, pages, prot, backing)

    def munmap(self, pid, addr, length):
        space = self.spaces.get(pid)
        if space is None:
            return error("ESRCH"), None
        if length == 0 or addr % PAGE:
            return error("EINVAL"), None
        after = without(space, pages_of(addr, length))
        if runs(after) > MOST_RUNS:
            return error("ENOMEM"), None
        return "ok", lambda: self.take_out(pid, after)

    def covering(self, pid, addr, length):
        """What refuses a call on a range that has to be mapped, or answers one on an empty range."""
        space = self.spaces.get(pid)
        if space is None:
            return error("ESRCH")
        if addr % PAGE:
            return error("EINVAL")
        if length == 0:
            return "ok"
        return None if is_covered(space, pages_of(addr, length)) else error("ENOMEM")

    def mprotect(self, pid, addr, length, prot):
        reply = self.covering(pid, addr, length)
        if reply:
            return reply, None
        space, pages = self.spaces[pid], pages_of(addr, length)
        backings = [space[page].backing for page in pages]
        if "w" in prot and any(b.kind == "shared" and self.files[b.number].read_only for b in backings):
            return error("EACCES"), None
        after = {**space, **{page: replace(space[page], prot=prot) for page in pages}}
        if runs(after) > MOST_RUNS:
            return error("ENOMEM"), None
        return "ok", lambda: self.spaces.update({pid: after})

    def dontneed(self, pid, addr, length):
        reply = self.covering(pid, addr, length)
        if reply:
            return reply, None
        space = self.spaces[pid]
        after = {**space, **{page: replace(space[page], own=None) for page in pages_of(addr, length)}}
        return "ok", lambda: self.spaces.update({pid: after})

    def msync(self, pid, addr, length, is_async):
        reply = self.covering(pid, addr, length)
        if reply or is_async:
            return reply or "ok", None
        chosen, resized = self.taken(pid, addr, length)
        if len(chosen) > self.most:
            return error("ENOSPC"), None
        return "ok", (lambda: self.commit(chosen, resized)) if chosen or resized else None

    def taken(self, pid, addr, length):
        """The touched pages that an msync of a mapped range takes, and the files of another length that it shows, of which it takes all that are touched."""
        backings = {self.spaces[pid][page].backing for page in pages_of(addr, length)}
        shown = {(b.number, b.page) for b in backings if b.kind == "shared"}
        resized = {number for number, _ in shown if self.files[number].resized}
        return {it for it in self.touched if it in shown or it[0] in resized}, resized

    def commit(self, chosen, resized):
        for number in {number for number, _ in chosen} | resized:
            self.files[number].commit([page for it, page in chosen if it == number])
        self.touched -= chosen

    # lengths of files

    def truncate(self, number, length):
        if number >= len(self.files):
            return error("EBADF"), None
        if self.files[number].read_only:
            return error("EACCES"), None
        if not self.resizes:
            return error("EINVAL"), None
        if length > LONGEST_FILE:
            return error("EFBIG"), None
        return "ok", (lambda: self.resize(number, length)) if length != self.files[number].length else None

    def resize(self, number, length):
        """Gives a file another length. Own copies behind the end are gone; touched stay the pages that begin before it, and touched is that in which the file ended."""
        file = self.files[number]
        if file.length < length and file.length % PAGE:
            self.touched.add((number, file.length // PAGE))
        file.resize(length)
        self.touched = {(it, page) for it, page in self.touched if it != number or PAGE * page < length}
        for space in self.spaces.values():
            for page, view in space.items():
                if view.own and view.backing[:2] == ("private", number) and PAGE * view.backing.page >= length:
                    space[page] = replace(view, own=None)

    # accesses

    def shown(self, view):
        if view.own is not None:
            return view.own
        kind, number, page = view.backing
        if view.backing.is_of_file():
            return self.files[number].page(page)
        return self.objects.get((number, page), bytes(PAGE)) if kind == "common" else bytes(PAGE)

    def fault_of(self, space, kind, addr, width):
        """The first test of an access that holds."""
        view = space.get(addr // PAGE)
        if addr % width:
            return f"{MISALIGNED[kind]} BUS_ADRALN {addr:#x}"
        if view is None:
            return f"{PAGE_FAULT[kind]} SEGV_MAPERR {addr:#x}"
        if NEEDED[kind] not in view.prot:
            return f"{PAGE_FAULT[kind]} SEGV_ACCERR {addr:#x}"
        backing = view.backing
        if backing.is_of_file() and PAGE * backing.page >= self.files[backing.number].length:
            return f"{PAGE_FAULT[kind]} BUS_ADRERR {addr:#x}"
        return None

    def access(self, kind, pid, addr, width, value=None):
        space = self.spaces.get(pid)
        if space is None:
            return error("ESRCH"), None
        fault = self.fault_of(space, kind, addr, width)
        if fault:
            return f"fault {fault}", lambda: self.past.append(f"past {pid} {fault}")
        view, at = space[addr // PAGE], addr % PAGE
        if kind == "store":
            return "ok", lambda: self.put(space, addr // PAGE, at, value.to_bytes(width, "little"))
        number = int.from_bytes(self.shown(view)[at:at + width], "little")
        return f"value {number:#0{2 + 2 * width}x}", None

    def put(self, space, page, at, new):
        view = space[page]
        old = self.shown(view)
        after = old[:at] + new + old[at + len(new):]
        kind, number, place = view.backing
        if kind == "shared":
            self.files[number].volatile[place] = after
            self.touched.add((number, place))
        elif kind == "common":
            self.objects[number, place] = after
        else:
            space[page] = replace(view, own=after)

    def load(self, pid, addr, width):
        return self.access("load", pid, addr, width)

    def store(self, pid, addr, width, value):
        return self.access("store", pid, addr, width, value)

    def fetch(self, pid, addr):
        return self.access("fetch", pid, addr, 4)

    def faults(self):
        return "\n".join([f"faults {len(self.past)}", *self.past]), None


NUMBER = re.compile(r"[0-9]+|0x[0-9a-fA-F]+")
FORMS = {"spawn": 0, "fork": 1, "exit": 1, "munmap": 3, "dontneed": 3, "truncate": 2, "fetch": 2, "faults": 0}


class BadLine(Exception):
    pass


def number(word, end=1 << 64):
    if not NUMBER.fullmatch(word):
        raise BadLine
    value = int(word, 16) if word.startswith("0x") else int(word)
    if value >= end:
        raise BadLine
    return value


def permission(word):
    if len(word) != 3 or any(c not in (p, "-") for c, p in zip(word, "rwx")):
        raise BadLine
    found = set(word) - {"-"}
    return frozenset(found | {"r"} if "w" in found else found)


def mapping(words):
    """The words of an mmap behind its name."""
    if len(words) < 5:
        raise BadLine
    *ranged, prot, kind = words[:5]
    count = {"anon": 0, "common": 0, "private": 2, "shared": 2}.get(kind)
    if count is None or not count <= len(words) - 5 <= count + 1:
        raise BadLine
    mode = words[5 + count] if len(words) > 5 + count else None
    if mode not in (None, "fixed", "noreplace"):
        raise BadLine
    file, offset = [number(word) for word in words[5:5 + count]] or [0, 0]
    return ("mmap", *map(number, ranged), permission(prot), kind, file, offset, mode)


def command_of(line):
    """The command that a line stands for; none where it is a bad line."""
    try:
        if len(line) > 256:
            raise BadLine
        name, *words = line.decode("ascii").split(" ")
        if name in FORMS and len(words) == FORMS[name]:
            return (name, *map(number, words))
        if name == "mmap":
            return mapping(words)
        if name == "mprotect" and len(words) == 4:
            return (name, *map(number, words[:3]), permission(words[3]))
        if name == "msync" and len(words) == 4 and words[3] in ("sync", "async"):
            return (name, *map(number, words[:3]), words[3] == "async")
        if name in ("load", "store") and len(words) == (3 if name == "load" else 4):
            pid, addr, width = map(number, words[:3])
            if width not in (1, 2, 4, 8):
                raise BadLine
            return (name, pid, addr, width, *(number(word, 1 << 8 * width) for word in words[3:]))
    except (BadLine, UnicodeDecodeError):
        pass
    return None
