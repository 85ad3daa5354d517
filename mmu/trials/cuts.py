"""Power cuts of `bank`: QEMU notes all writes and flushes of one run, and the image is judged as each cut would leave it, on an image of either layout. Of the sectors that
were not flushed a cut leaves none written, all of them, or a random half, three times. What stands for the file has to be a whole msync, to the last byte, and none earlier
than the last flush made durable."""
import os
import random
import struct
import subprocess
import sys
import tempfile

HERE = os.path.dirname(os.path.abspath(__file__))
TOP = os.path.dirname(os.path.dirname(HERE))
sys.path[:0] = [os.path.dirname(HERE), HERE]
from emulator import MMU, built, compiled, disk, logged_disk, make_image, make_swap, qemu_words
from traces import loaded

SECTOR, PAGE, SECONDS = 512, 4096, 300
ACCOUNTS, MOST_TRANSFERS, EACH, FIRST_SUM, FILE_BYTES = 1000, 500, 10, 1000000, 65536  # of user/bank.c
FILLINGS = 5  # at least
LAYOUTS = {"new": 2, "new4": 4}
CONTROLS = 250  # images
CHECKED = 500  # of so many images one is read by pagecat too

imagecat = loaded(f"{TOP}/tools/imagecat")


class Overlaid:
    """An image with other bytes in some sectors, as a file to read."""

    def __init__(self, image, sectors):
        self.image, self.sectors, self.at = image, sectors, 0

    def __enter__(self):
        return self

    def __exit__(self, *_):
        pass

    def seek(self, at):
        self.at = at

    def read(self, length):
        numbers = range(self.at // SECTOR, (self.at + length) // SECTOR)
        return b"".join(self.sectors.get(n) or self.image[SECTOR * n:SECTOR * n + SECTOR] for n in numbers)

    def whole(self):
        self.at = 0
        return self.read(len(self.image))


imagecat.open = lambda image, _: image


def bank_of(image):
    """What stands for the bank's file in an image."""
    return b"".join(imagecat.pages(image, 1))


def known_banks():
    """Of each content that an msync makes durable how many transfers it has, and of the file before the first."""
    accounts, known = [0] * (8 * PAGE // 8), {bytes(FILE_BYTES): 0}
    accounts[0] = FIRST_SUM
    for n in range(MOST_TRANSFERS):
        accounts[n * 7919 % ACCOUNTS * 4] -= n % 100
        accounts[n * 104729 % ACCOUNTS * 4] += n % 100
        if (n + 1) % EACH == 0:
            content = struct.pack(f"<{len(accounts)}q2q", *accounts, n + 1, 1)
            known[content.ljust(FILE_BYTES, b"\0")] = n + 1
    return known


def events_of(log):
    """What QEMU's blklogwrites noted, in its order: the number and the bytes of a sector that was written, and None for a flush."""
    with open(log, "rb") as file:
        content = file.read()
    _, _, count, block = struct.unpack_from("<QQQI", content)
    at = block
    for _ in range(count):
        sector, sectors, flags, _ = struct.unpack_from("<QQQQ", content, at)
        at += block
        for k in range(sectors):
            yield sector + k, content[at + SECTOR * k:at + SECTOR * (k + 1)]
        at += block * (sectors * SECTOR // block)
        if flags & 1:
            yield None


def fillings(unsynced, number, rng):
    """What a cut may leave written of what was not flushed."""
    yield {}
    yield dict(unsynced)
    for _ in range(number - 2):
        yield {number: it for number, it in unsynced.items() if rng.random() < 0.5}


def flushed(image, unsynced):
    for number, content in unsynced.items():
        image[SECTOR * number:SECTOR * number + SECTOR] = content
    unsynced.clear()


def cut_images(base, events, cuts, rng):
    """The moments of about so many cuts, their images, and the image as it was flushed last before."""
    number = max(FILLINGS, cuts // len(events))
    moments = set(rng.sample(range(len(events)), min(-(-cuts // number), len(events))))
    image, unsynced = bytearray(base), {}
    before = Overlaid(image, {})
    for moment, event in enumerate(events):
        if event is None:
            flushed(image, unsynced)
            before = Overlaid(image, {})
        else:
            unsynced[event[0]] = event[1]
        if moment in moments:
            for filling in fillings(unsynced, number, rng):
                yield moment, Overlaid(image, filling), before


def by_pagecat(image):
    """The bank's file, as the proved program reads it."""
    with tempfile.NamedTemporaryFile() as file:
        file.write(image.whole())
        file.flush()
        return subprocess.run([built(["pagecat"]).path("pagecat"), file.name, "1"], stdout=subprocess.PIPE, check=True).stdout


def judged(images):
    """How many images there were, and which are bad: the moment, the transfers that it has to have, and those that it has, -1 where it is none of a whole msync."""
    known, count, bad, flushed_last = known_banks(), 0, [], None
    for moment, image, before in images:
        if before is not flushed_last:
            flushed_last, least = before, known[bank_of(before)]
        content = bank_of(image)
        transfers = known.get(content, -1)
        if transfers < least:
            bad.append((moment, least, transfers))
        if count % CHECKED == 0 and by_pagecat(image) != content:
            bad.append((moment, "pagecat and imagecat differ"))
        count += 1
    return count, bad


def logged_run(room, verb):
    """The image before a run of `bank`, what its disk was asked for, and the image after it."""
    image, swap, log = (f"{room}/{it}" for it in ("image", "swap", "log"))
    make_image(image, [compiled(f"{MMU}/user/bank.c", room)], verb)
    with open(image, "rb") as file:
        base = file.read()
    make_swap(swap, 64)
    with open(log, "wb"):
        pass
    words = qemu_words([logged_disk(image, log), disk(swap)], ["pagemmu", 1, 64, 64, "sv39"])
    subprocess.run(words, stdin=subprocess.DEVNULL, stdout=subprocess.DEVNULL, check=True, timeout=SECONDS)
    with open(image, "rb") as file:
        return base, list(events_of(log)), file.read()


def try_layout(tally, verb, cuts, rng):
    with tempfile.TemporaryDirectory() as room:
        base, events, end = logged_run(room, verb)
    name = f"layout {LAYOUTS[verb]}"
    after = bytearray(base)
    flushed(after, dict(filter(None, events)))
    tally.check(f"{name}: the log is of the run", after == end, True)
    count, bad = judged(cut_images(base, events, cuts, rng))
    tally.check(f"{name}: power cuts", bad, [])
    print(f"{name}: {count} images of power cuts in {len(events)} sector writes and flushes, {len(bad)} bad")
    count, bad = judged(cut_images(base, list(filter(None, events)), CONTROLS, rng))
    tally.check(f"{name}: without its flushes some are torn", len(bad) > 0, True)
    print(f"{name}, without its flushes: {count} images, {len(bad)} bad")


def try_cuts(tally, cuts, seed):
    for verb in LAYOUTS:
        try_layout(tally, verb, cuts // len(LAYOUTS), random.Random(seed))
