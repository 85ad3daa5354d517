"""What a power cut may leave of a file and its log, by a trace of recorder.so.

At a cut all that a sync took is there. Of the sectors that were written since, by the model:

    page    each page of 4,096 bytes is as it was, or as one of its later versions
    sector  each sector of 512 bytes is so
    torn    as sector, and one in four of the written sectors is cut in its midst, or is of any bytes (the disk model of docs/FAILURES.md)

A sync of one file settles the lengths and names of both, since a file system keeps those in order. What a shorter length has cut off
does not come back. What a log has grown by is there as soon as its length is (data=ordered of ext4), but in the model torn.
"""
import collections
import itertools
import struct
from typing import NamedTuple

SECTOR, PAGE = 512, 4096
WRITE, SYNC, LENGTH, ACKNOWLEDGED = 1, 2, 3, 4
DATA, LOG = 0, 1
NO_FILE = (1 << 64) - 1
HEAD = struct.Struct("<HHIQQ")


class Model(NamedTuple):
    """The bytes that are kept or lost together, and whether sectors are torn."""

    unit: int
    torn: bool


MODELS = {"page": Model(PAGE, False), "sector": Model(SECTOR, False), "torn": Model(SECTOR, True)}


class Event(NamedTuple):
    """An event of a trace. `at`: the place of a write, a new length, or the number of a transaction. `call`: which call or look it is of."""

    kind: int
    file: int
    call: int
    at: int
    row: bytes


def events(path):
    """The events of a trace, in their order, writes a sector each."""
    with open(path, "rb") as trace:
        content = trace.read()
    place, found = 0, []
    while place < len(content):
        kind, file, call, at, length = HEAD.unpack_from(content, place)
        place += HEAD.size
        row = content[place:place + length] if kind == WRITE else b""
        place += len(row)
        found.append(Event(kind, file, call, at, row))
    return found


class File:
    """What a disk has of a file: what is synced, and since then each sector's versions and each length, with their times."""

    def __init__(self, content=None, is_log=False):
        self.synced = bytearray(content or b"")
        self.is_log = is_log
        self.versions = collections.defaultdict(list)
        self.lengths = [(-1, NO_FILE if content is None else len(content))]

    def write(self, time, at, row):
        """Takes a sector, which is not durable yet."""
        self.versions[at // SECTOR].append((time, row))

    def become(self, time, length):
        """Takes a length, which is not durable yet."""
        self.lengths.append((time, length))

    def cuts(self):
        """The times at which it became shorter, and how long it was then."""
        sizes = [(time, 0 if length == NO_FILE else length) for time, length in self.lengths]
        return [(time, length) for (_, before), (time, length) in itertools.pairwise(sizes) if length < before]

    def settle(self):
        """Its length and name are durable now."""
        for time, length in self.cuts():
            del self.synced[length:]
            for sector in [it for it in self.versions if SECTOR * (it + 1) > length]:
                self.versions[sector] = [it for it in self.versions[sector] if it[0] > time]
        self.lengths = self.lengths[-1:]

    def sync(self):
        """All that was written is durable now."""
        self.settle()
        for sector, versions in self.versions.items():
            if versions:
                put(self.synced, sector, versions[-1][1])
        self.versions.clear()

    def left(self, model, rng):
        """What a cut at this moment may leave; None where the file is not there."""
        time, length = rng.choice(self.lengths)
        cuts = self.cuts()
        made = [it for it in cuts if it[0] <= time]
        content, kept = bytearray(self.synced), rng.choice((0.1, 0.5, 0.9))
        for _, shorter in made:
            del content[shorter:]
        for sectors in self.seen(made, min((it for it, _ in cuts if it > time), default=None), model.unit):
            last = time if self.is_grown(min(sectors), made, model) else last_kept(sectors, kept, rng)
            leave(content, sectors, last, model.torn, rng)
        return None if length == NO_FILE else bytes(content[:length]).ljust(length, b"\0")

    def seen(self, made, end, unit):
        """The versions that may be seen between the cuts that were made and the next one, at `end`: by sector, grouped by unit."""
        groups = collections.defaultdict(dict)
        for sector, versions in self.versions.items():
            begin = max((time for time, shorter in made if SECTOR * (sector + 1) > shorter), default=-1)
            possible = [it for it in versions if it[0] > begin and (end is None or it[0] < end)]
            if possible:
                groups[SECTOR * sector // unit][sector] = possible
        return groups.values()

    def is_grown(self, sector, made, model):
        """Whether a log was shorter than where a sector's unit begins."""
        shortest = min([0 if self.lengths[0][1] == NO_FILE else self.lengths[0][1], *(length for _, length in made)])
        return self.is_log and not model.torn and SECTOR * sector // model.unit * model.unit >= shortest


def last_kept(sectors, kept, rng):
    """The time of the last write of a unit that the disk has kept, which is the last one of all more often than not; -1 where it has
    kept none. `kept` is how likely it is to have kept one."""
    if rng.random() >= kept:
        return -1
    times = sorted({time for versions in sectors.values() for time, _ in versions})
    return times[-1] if rng.random() < 0.6 else rng.choice(times)


def leave(content, sectors, last, is_torn, rng):
    """Puts each sector's version of that time, if it has one."""
    for sector, versions in sectors.items():
        rows = [row for time, row in versions if time <= last]
        if rows:
            put(content, sector, torn(rows[-1], content, sector, rng) if is_torn else rows[-1])


def put(content, sector, row):
    """Writes a sector, lengthening the content with zeros up to it."""
    at = SECTOR * sector
    content.extend(bytes(max(0, at + SECTOR - len(content))))
    content[at:at + len(row)] = row


def torn(row, content, sector, rng):
    """The row, or, one in four times, a part of it before the old bytes or before any bytes."""
    if rng.random() >= 0.25:
        return row
    cut, old = rng.randrange(SECTOR), bytes(content[SECTOR * sector:SECTOR * (sector + 1)]).ljust(SECTOR, b"\0")
    return row[:cut] + (old[cut:] if rng.random() < 0.5 else rng.randbytes(SECTOR - cut))


class Disk:
    """The file and its log, as events come. `ignores`: one in so many syncs is none, as a control; 0 for a disk that keeps them all."""

    def __init__(self, content, ignores=0):
        self.files = [File(content), File(is_log=True)]
        self.ignores, self.syncs = ignores, 0
        self.acknowledged = 0

    def take(self, event):
        """One event."""
        file = self.files[event.file]
        if event.kind == WRITE:
            file.write(event.call, event.at, event.row)
        elif event.kind == LENGTH:
            file.become(event.call, event.at)
        elif event.kind == ACKNOWLEDGED:
            self.acknowledged = event.at
        else:
            self.sync(file)

    def sync(self, file):
        """A sync of one of the two."""
        self.syncs += 1
        if self.ignores == 0 or self.syncs % self.ignores != 0:
            for it in self.files:
                it.settle()
            file.sync()


def end_of_call(listed, point):
    """The end of the call in whose midst a point is, or the point."""
    while 0 < point < len(listed) and listed[point].call == listed[point - 1].call:
        point += 1
    return point


def cut_points(listed, model, count, rng):
    """Before which events the cuts come, in their order: one half anywhere, the other just before a sync, when most is at stake. The page
    model knows no cut within one call."""
    syncs = [k for k, event in enumerate(listed) if event.kind == SYNC]
    points = [rng.choice(syncs) if syncs and rng.random() < 0.5 else rng.randrange(len(listed) + 1) for _ in range(count)]
    return sorted(end_of_call(listed, point) if model.unit == PAGE else point for point in points)


def states(base, trace, model, count, rng, ignores=0):
    """Yields `count` states: the file, its log or None, and the last transaction that was acknowledged before the cut."""
    listed = events(trace)
    disk, taken = Disk(base, ignores), 0
    for point in cut_points(listed, model, count, rng):
        for event in listed[taken:point]:
            disk.take(event)
        taken = point
        yield disk.files[DATA].left(model, rng), disk.files[LOG].left(model, rng), disk.acknowledged
