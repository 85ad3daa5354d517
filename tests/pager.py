#!/usr/bin/env python3
"""pager.py IMAGE SWAP: a stand-in for pagerun in tests: it replies as the flat model does, and makes an msync durable in the order of writes of docs/FORMATS.md,
layout 2. PAGER_TOP names the repository. With PAGER_TEARS it writes the pages home at once, one after another, and no journal: a kill leaves them torn."""
import os
import subprocess
import sys
import time

TOP = os.environ["PAGER_TOP"]
sys.dont_write_bytecode = True
sys.path[:0] = [f"{TOP}/bench", f"{TOP}/embed"]
from flat_model import File, Model, command_of
from images import LAYOUTS

PAGE, SECTOR, PLACES = 4096, 512, LAYOUTS[2]
MAP = PLACES.journals[1]


class Image:
    """An image of files whose homes follow one another."""

    def __init__(self, path):
        self.file = os.open(path, os.O_RDWR)
        directory = os.pread(self.file, SECTOR, SECTOR * PLACES.directory)
        words = [int.from_bytes(directory[4 * k:4 * k + 4], "little") for k in range(128)]
        self.lengths = [length for word, length in zip(words[::2], words[1::2]) if word >> 31]
        self.files = [subprocess.run([f"{TOP}/tools/imagecat", path, str(k)], stdout=subprocess.PIPE, check=True).stdout for k in range(len(self.lengths))]
        self.live = self.journal() if os.pread(self.file, SECTOR, SECTOR * PLACES.gate) == b"GATEOPEN" * 64 else {}
        self.settle()

    def journal(self):
        content = os.pread(self.file, PAGE, SECTOR * MAP)
        numbers = [int.from_bytes(content[4 * k:4 * k + 4], "little") for k in range(1024)]
        return {home: os.pread(self.file, PAGE, SECTOR * (MAP + PLACES.map_sectors) + PAGE * k) for k, home in enumerate(numbers[1:1 + numbers[0]])}

    def write(self, sector, content):
        os.pwrite(self.file, content, SECTOR * sector)

    def write_homes(self, pages):
        for home, page in pages.items():
            self.write(PLACES.homes + 8 * home, page)

    def settle(self):
        """Writes the live pages home, and closes the gate."""
        if self.live:
            self.write_homes(self.live)
            os.fsync(self.file)
            self.write(PLACES.gate, bytes(SECTOR))
            os.fsync(self.file)
            self.live = {}

    def commit(self, pages):
        self.settle()
        self.write(MAP + PLACES.map_sectors, b"".join(pages.values()))
        self.write(MAP, b"".join(it.to_bytes(4, "little") for it in (len(pages), *pages)).ljust(PAGE, b"\0"))
        os.fsync(self.file)
        self.write(PLACES.gate, b"GATEOPEN" * 64)
        os.fsync(self.file)
        self.live = pages

    def tear(self, pages):
        for home, page in pages.items():
            self.write_homes({home: page})
            time.sleep(0.001)
        os.fsync(self.file)


def pages_of(files):
    """The pages of all files by their homes."""
    pages = [it[at:at + PAGE].ljust(PAGE, b"\0") for it in files for at in range(0, len(it), PAGE)]
    return dict(enumerate(pages))


def main(path):
    image = Image(path)
    model, before = Model([File.new(False, it) for it in image.files]), pages_of(image.files)
    for line in sys.stdin.buffer:
        command = command_of(line.rstrip(b"\n"))
        reply, effect = model.answer(command)
        if effect:
            effect()
        if command[0] == "msync":
            after = pages_of(model.durable())
            changed = {home: page for home, page in after.items() if page != before[home]}
            if changed:
                (image.tear if "PAGER_TEARS" in os.environ else image.commit)(changed)
            before = after
        print(reply, flush=True)


main(sys.argv[1])
