"""The traces that bench/run and bench/ab measure, each a row of the table in docs/SPEED.md. Every line of them succeeds."""
from typing import Callable, Iterable, NamedTuple

PAGE = 4096
BASE = 0x10000
FAR = 0x200000  # the first page below the second lowest table
TABLE = 512  # pages below a lowest table
USER_BYTES = 0x3FFFFF0000
IMAGE = f"zero:{1023 * PAGE}"
LARGE = 2**60
WARM_LOAD, WARM_STORE = "a warm load", "a warm store"
MAPPED = 255  # pages of the file that many processes map, in one run or in as many runs


class Trace(NamedTuple):
    """Lines that go before, and turns, of which `turn(k)` gives the lines. What a turn takes is the difference of two runs of so many turns, and so
    has no part of the start; where time is taken there are `more` times as many."""

    name: str
    before: Callable[[], Iterable[str]]
    turn: Callable[[int], list[str]]
    turns: tuple[int, int]
    frames: int = 1024
    slots: int = 0
    against: str = WARM_LOAD  # the trace in times of which it is told
    more: int = 30

    def lines(self, count):
        """The lines of so many turns."""
        yield from self.before()
        for k in range(count):
            yield from self.turn(k)


def spawned():
    """A process without a mapping."""
    return ["spawn"]


def resident(pages, stride=PAGE):
    """A process that has stored to so many pages of anonymous memory."""
    yield from ("spawn", f"mmap 1 {BASE:#x} {pages * stride:#x} rw- anon")
    for k in range(pages):
        yield f"store 1 {BASE + stride * k:#x} 1 1"


def filed():
    """A process that has as many pages of the file in frames as a table has entries for."""
    yield from ("spawn", f"mmap 1 {FAR} {TABLE * PAGE} rw- shared 0 0")
    for page in range(TABLE):
        yield f"load 1 {FAR + PAGE * page} 8"


def warm(k):
    """An address in a warm working set of 64 pages."""
    return BASE + PAGE * (k * 7 % 64) + 8 * (k % 512)


def warm_load(k):
    return [f"load 1 {warm(k)} 8"]


def warm_store(k):
    return [f"store 1 {warm(k)} 8 {k + LARGE}"]


def warmed():
    """A process whose working set holds large values."""
    yield from resident(64)
    for k in range(512):
        yield from warm_store(k)


def warm_accesses():
    """Accesses that the page tables grant."""
    yield Trace(WARM_LOAD, warmed, warm_load, (2_000, 22_000))
    yield Trace(WARM_STORE, warmed, warm_store, (2_000, 22_000))
    yield Trace("a warm load, 65,536 frames", warmed, warm_load, (2_000, 22_000), 65_536)


def cold_load():
    """Loads of pages that the first process has in frames, by others that have no entry for them yet. Each has loaded the page before them, so its
    tables are there, and loads one after the other: nothing else is in the difference."""
    fresh = TABLE - 1

    def before():
        yield from filed()
        for n in range(2, 61):
            yield from ("spawn", f"mmap {n} {FAR} {TABLE * PAGE} rw- shared 0 0", f"load {n} {FAR} 8")

    def turn(k):
        return [f"load {2 + k // fresh} {FAR + PAGE * (1 + k % fresh)} 8"]

    return Trace("cold load, page in a frame", before, turn, (100, 1_000))


def first_store():
    """First stores to anonymous pages whose tables are there, by a store to one page below each."""
    fresh = TABLE - 1

    def before():
        yield from ("spawn", f"mmap 1 {FAR} {64 * TABLE * PAGE} rw- anon")
        for table in range(64):
            yield f"store 1 {FAR + TABLE * PAGE * table} 8 1"

    def turn(k):
        return [f"store 1 {FAR + PAGE * (1 + k + k // fresh)} 8 {k + LARGE}"]

    return Trace("first store to an anonymous page", before, turn, (100, 1_000), 32_768)


def swapped(frames):
    """Loads round and round over twice as many pages as memory has frames for, so that each brings a page back from its slot and puts another into
    one. No clock can choose well then: each page is given up before its turn comes."""
    pages = 2 * frames

    def turn(k):
        return [f"load 1 {BASE + PAGE * (k % pages)} 8"]

    return Trace(f"load, page in a slot; {frames:,} frames", lambda: resident(pages), turn, (2 * pages, 4 * pages), frames, pages)


def process_calls():
    """Calls that make and end processes."""
    fork = ["fork 1", "exit 2"]
    copy = ["fork 1", f"store 1 {BASE} 1 2", "exit 2"]
    yield Trace("spawn, exit", spawned, lambda k: ["spawn", "exit 2"], (200, 5_200))
    yield Trace("fork, exit; 1 own page", lambda: resident(1), lambda k: fork, (100, 2_100))
    yield Trace("fork, store that copies, exit; 1 own page", lambda: resident(1), lambda k: copy, (100, 2_100))
    yield Trace("fork, exit; 512 own pages", lambda: resident(512), lambda k: fork, (10, 110))
    yield Trace("fork, exit; 32 own pages in 32 tables", lambda: resident(32, TABLE * PAGE), lambda k: fork, (20, 120))
    yield Trace("fork, exit; 10,000 own pages", lambda: resident(10_000), lambda k: fork, (2, 22), 16_384)


def row_calls():
    """Calls on rows of pages."""

    def one_stored():
        return ["spawn", f"mmap 1 {BASE} {USER_BYTES} rw- anon", f"store 1 {BASE} 1 1"]

    def mapping(size, kind="anon", *between):
        return lambda k: [f"mmap 1 {BASE} {size} rw- {kind}", *between, f"munmap 1 {BASE} {size}"]

    def permitting(at, size):
        return lambda k: [f"mprotect 1 {at} {size} {('r--', 'rw-')[k % 2]}"]

    reload = [f"dontneed 1 {FAR} {TABLE * PAGE}", *(f"load 1 {FAR + PAGE * page} 8" for page in range(TABLE))]
    yield Trace("mmap, munmap; 1 page", spawned, mapping(PAGE), (100, 2_100))
    yield Trace("mmap, munmap; all user pages", spawned, mapping(USER_BYTES), (100, 1_100))
    yield Trace("mmap, store, munmap; 1 common page", spawned, mapping(PAGE, "common", f"store 1 {BASE} 1 1"), (100, 1_100))
    yield Trace("mprotect; 1 page", lambda: resident(1), permitting(BASE, PAGE), (100, 2_100))
    yield Trace("mprotect; 512 resident pages of a file", filed, permitting(FAR, TABLE * PAGE), (10, 110))
    yield Trace("dontneed, 512 loads; pages of a file", filed, lambda k: reload, (2, 22))
    yield Trace("mprotect; all user pages, 1 stored", one_stored, permitting(BASE, USER_BYTES), (100, 1_100))


def owner(page, processes):
    """The process that alone accesses a page of the file: they take turns."""
    return page % processes + 1


def sharers(processes, runs):
    """Processes that all map the file, in so many runs. Each has its tables, since it has loaded one page of its own."""
    for n in range(1, processes + 1):
        yield from ("spawn", f"mmap {n} {BASE} {MAPPED * PAGE} rw- shared 0 0")
        for page in range(1, runs, 2):
            yield f"mprotect {n} {BASE + PAGE * page} {PAGE} rwx"
    for page in range(180, 180 + processes):
        yield f"load {owner(page, processes)} {BASE + PAGE * page} 8"


def evicting(processes, runs):
    """Loads that give a frame up: of the frames 3 a process are tables and one is the zero page, and 65 are left for 240 pages."""

    def turn(k):
        page = k % 240
        return [f"load {owner(page, processes)} {BASE + PAGE * page} 8"]

    return Trace("load that evicts", lambda: sharers(processes, runs), turn, (65, 195), 3 * processes + 66)


def syncing(processes, runs):
    """A page stored and made durable; frames suffice for all 120."""

    def turn(k):
        page = k % 120
        n, at = owner(page, processes), BASE + PAGE * page
        return [f"store {n} {at} 8 {k + LARGE}", f"msync {n} {at} {PAGE} sync"]

    return Trace("store and msync", lambda: sharers(processes, runs), turn, (120, 240), 3 * processes + 200, more=3)


def shared(kind):
    """Such a trace for few and many processes that map the file in few and many runs, the others against the first."""
    first = None
    sizes = ((1, 1, "1 process, 1 run"), (60, 1, "60 processes"), (1, MAPPED, "255 runs"), (60, MAPPED, "60 processes, 255 runs"))
    for processes, runs, text in sizes:
        trace = kind(processes, runs)
        name = f"{trace.name}; {text}"
        yield trace._replace(name=name, against=first or WARM_LOAD)
        first = first or name


def msyncs(pages, count):
    """Stores to so many pages of the file, and one msync of them all, to be timed by the clock."""

    def before():
        return ["spawn", f"mmap 1 {BASE} {pages * PAGE} rw- shared 0 0"]

    def turn(k):
        return [*(f"store 1 {BASE + PAGE * page} 1 {k % 255 + 1}" for page in range(pages)), f"msync 1 {BASE} {pages * PAGE} sync"]

    return Trace(f"msync of {pages:,} page{'' if pages == 1 else 's'}", before, turn, (1, count + 1), 1_088)


def traces(word=""):
    """All traces whose name has that word, but those of `msyncs`."""
    single = [cold_load(), first_store(), swapped(64), swapped(1_024)]
    every = [*warm_accesses(), *single, *process_calls(), *row_calls(), *shared(evicting), *shared(syncing)]
    return [it for it in every if word in it.name]
