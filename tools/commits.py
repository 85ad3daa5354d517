"""Msyncs by the order of their writes in docs/FORMATS.md, of layouts 2 and 4, and what a stop at each write and sync leaves, as pagestops prints it; beside them a
plain msync, which writes pages where they belong, and tears. It runs no program, and shares no code with one; tests/tools compares its lines of layout 2 with
those of pagestops, tests/edges those of layout 4."""
from typing import NamedTuple, Optional

OPEN, ZEROS = b"GATEOPEN" * 64, bytes(512)
FILLINGS = (None, ZEROS, b"\xff" * 512, OPEN[:256] + ZEROS[:256], OPEN)


class Layout(NamedTuple):
    """The sectors of the gate, if any, and of the first home of a file, and those of the journals, of a pool the maps, that a closed gate names, if any, and an
    open one; of a pool how many blocks a map has, and how many slots of a body serve."""

    gate: Optional[int]
    homes: int
    journals: tuple
    blocks: int = 0
    places: int = 0

    def slot(self, is_second, place):
        """The first sector of a slot."""
        return self.journals[is_second] + 8 * (self.blocks + place)

    def block(self, is_second, q):
        """The first sector of a block of a map, of which the last one comes first."""
        return self.journals[is_second] + 8 * (self.blocks - 1 - q)


PLAIN = 0  # no layout: a file without a journal
BLOCK = 504  # slots of each body that a block names
DIRECTORY = 4  # homes of a new pool before those of files


def pool(blocks):
    return Layout(8, 16 + 8080 * blocks + 8 * DIRECTORY, (16, 16 + 4040 * blocks), blocks, BLOCK * blocks)


LAYOUTS = {PLAIN: Layout(None, 0, (None, None)), 2: Layout(2, 8195, (None, 3)), 4: pool(4)}


def sectors_of(first, content):
    return {first + k: content[512 * k:512 * k + 512] for k in range(len(content) // 512)}


class Disk:
    """What is synced, what is written since, and a line for each write and sync that was stopped. A stop spoils sectors, or as many together. The sync that is
    event `drop` succeeds and syncs nothing."""

    def __init__(self, layout, together=1, drop=None):
        self.layout, self.together, self.drop, self.synced, self.unsynced = layout, together, drop, {}, {}
        self.stops, self.done = [], 0
        self.slots = {}  # of a pool, by homes of files

    def stop(self, part, sectors):
        """Notes the part, the sectors that may hold any bytes, and how many msyncs were done."""
        spoilt = {k // self.together * self.together + i for k in sectors for i in range(self.together)}
        images = [{**self.synced, **{k: fill for k in spoilt if fill is not None}} for fill in FILLINGS]
        self.stops.append((part, self.done, images))

    def write(self, part, first, content):
        for sector, bytes_of in sectors_of(first, content).items():
            self.stop(part, [*self.unsynced, sector])
            self.unsynced[sector] = bytes_of

    def sync(self):
        self.stop("sync", self.unsynced)
        if len(self.stops) != self.drop:
            self.synced.update(self.unsynced)
            self.unsynced = {}

    def page(self, image, first):
        return b"".join(image.get(first + k, ZEROS) for k in range(8))

    def pages(self, image, count):
        """The home pages that the image stands for; none where its journal is bad."""
        if self.layout.blocks:
            slots = self.slots_in(image)
            return [self.page(image, slots.get(k, self.layout.homes + 8 * k)) for k in range(count)]
        start, live = self.layout.journals[image.get(self.layout.gate) == OPEN], []
        if start is not None:
            numbers = memoryview(self.page(image, start)).cast("I").tolist()
            live = numbers[1:1 + numbers[0]]
            if numbers[0] > 1023:
                return []
        return [self.page(image, start + 8 + 8 * live.index(k) if k in live else self.layout.homes + 8 * k) for k in range(count)]

    def slots_in(self, image):
        """The first sectors of the slots that the named map of a pool gives to homes of files, of each home the first one."""
        layout, second, slots = self.layout, image.get(self.layout.gate) == OPEN, {}
        counted = min(memoryview(self.page(image, layout.block(second, 0))).cast("I")[0], layout.blocks)
        blocks = [memoryview(self.page(image, layout.block(second, q))).cast("I").tolist() for q in range(counted)]
        for body in (0, 1):
            for q, block in enumerate(blocks):
                for place, number in enumerate(block[16 + BLOCK * body:16 + BLOCK * (body + 1)], BLOCK * q):
                    slots.setdefault(number - 1 - DIRECTORY, layout.slot(body, place))
        return slots


def stage(disk, start, pages):
    """The body and the map of a journal."""
    disk.write("body", start + 8, b"".join(pages.values()))
    disk.write("map", start, b"".join(k.to_bytes(4, "little") for k in (len(pages), *pages)).ljust(4096, b"\0"))


def copy_home(disk, pages):
    for home, page in pages.items():
        disk.write("home", disk.layout.homes + 8 * home, page)


def in_one(disk, live, pages):
    """An msync of layout 2 over live pages."""
    if live:
        copy_home(disk, live)
        disk.sync()
        disk.write("gate", disk.layout.gate, ZEROS)
        disk.sync()
    stage(disk, disk.layout.journals[1], pages)
    disk.sync()
    disk.write("gate", disk.layout.gate, OPEN)
    disk.sync()


def in_slots(disk, live, pages):
    """An msync of layout 4: the pages go to free slots, those of the other body first, and the other map names these. Where slots of other pages and new ones are
    more than a body has, the others are copied home."""
    layout, other = disk.layout, disk.synced.get(disk.layout.gate) != OPEN
    kept = {home: slot for home, slot in sorted(disk.slots.items()) if home not in pages}
    if len(kept) + len(pages) > layout.places:
        copy_home(disk, {home: disk.page(disk.synced, layout.slot(*slot)) for home, slot in kept.items()})
        kept = {}
    taken = set(disk.slots.values())
    free = [slot for body in (other, not other) for slot in ((body, place) for place in range(layout.places)) if slot not in taken]
    given = dict(zip(pages, free))
    for home, page in pages.items():
        disk.write("body", layout.slot(*given[home]), page)
    disk.slots = kept | given
    write_map(disk, other)
    disk.sync()
    disk.write("gate", layout.gate, OPEN if other else ZEROS)
    disk.sync()


def write_map(disk, other):
    """The blocks of a map that count, the last of them first."""
    counted = 1 + max((place // BLOCK for _, place in disk.slots.values()), default=0)
    for q in reversed(range(counted)):
        numbers = [0] * 1024
        numbers[0] = counted if q == 0 else 0
        for home, (body, place) in disk.slots.items():
            if place // BLOCK == q:
                numbers[16 + BLOCK * body + place % BLOCK] = home + DIRECTORY + 1
        disk.write("map", disk.layout.block(other, q), b"".join(it.to_bytes(4, "little") for it in numbers))


def in_place(disk, live, pages):
    """A plain msync: the pages are written where they belong."""
    for home, page in pages.items():
        disk.write("page", disk.layout.homes + 8 * home, page)
    disk.sync()


MSYNCS = {PLAIN: in_place, 2: in_one, 4: in_slots}


def stops_of_msyncs(number, msyncs, together=1, drop=None):
    """The lines of pagestops for msyncs, each a list of homes, on a new store of that layout: an opening syncs, and then they come. Of no layout (PLAIN) it is a
    file that nobody opens. A stop spoils sectors, or blocks of so many, and the sync that is event `drop` is none."""
    count = 1 + max(home for homes in msyncs for home in homes)
    disk, live, after = Disk(LAYOUTS[number], together, drop), {}, [[bytes(4096)] * count]
    if number != PLAIN:
        disk.sync()
    for place, homes in enumerate(msyncs):
        pages = {home: bytes([place + 1]) * 4096 for home in homes}
        MSYNCS[number](disk, live, pages)
        disk.done, live = place + 1, pages
        after.append([pages.get(k, page) for k, page in enumerate(after[-1])])
    lines = [line(disk, event, stop, after) for event, stop in enumerate(disk.stops, 1)]
    return [*lines, f"stops {len(lines)} recoveries {len(FILLINGS) * len(lines)} bad {sum(it.endswith(' BAD') for it in lines)}"]


def line(disk, event, stop, after):
    part, done, images = stop
    found = [disk.pages(image, len(after[0])) for image in images]
    left = [next((str(k) for k in range(done, len(after)) if after[k] == pages), "-") for pages in found]
    return f"stop {event} {part} acknowledged {done} left {' '.join(left)}" + " BAD" * ("-" in left)
