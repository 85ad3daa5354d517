"""Tests of powercuts.py: what a disk may leave, and that it leaves each of these. python3 -m unittest test_powercuts."""
import os
import random
import subprocess
import sys
import tempfile
import unittest

from powercuts import MODELS, NO_FILE, PAGE, SECTOR, Disk, Event, File, LENGTH, SYNC, WRITE, events

RECORDER = os.path.join(os.path.dirname(os.path.abspath(__file__)), "out", "recorder.so")

TRIES = 400


def row(letter):
    """A sector of one letter."""
    return letter.encode() * SECTOR


def left(file, model):
    """What TRIES cuts leave."""
    rng = random.Random(model)
    return {file.left(MODELS[model], rng) for _ in range(TRIES)}


class Left(unittest.TestCase):
    def test_what_was_synced_is_there(self):
        for model in MODELS:
            file = File(row("a") + row("b"))
            file.write(1, 0, row("c"))
            file.write(2, 0, row("d"))
            file.sync()
            self.assertEqual(left(file, model), {row("d") + row("b")})

    def test_each_version_may_be_left(self):
        file = File(row("a"))
        file.write(1, 0, row("b"))
        file.write(2, 0, row("c"))
        self.assertEqual(left(file, "sector"), {row("a"), row("b"), row("c")})

    def test_pages_are_kept_whole_and_sectors_are_not(self):
        file = File(row("a") * 16)
        for sector in (0, 7, 8):
            file.write(1, SECTOR * sector, row("b"))
        pages = {(state[0], state[PAGE - 1], state[PAGE]) for state in left(file, "page")}
        self.assertEqual(pages, {(a, a, b) for a in b"ab" for b in b"ab"})
        sectors = {(state[0], state[PAGE - 1], state[PAGE]) for state in left(file, "sector")}
        self.assertEqual(len(sectors), 8)

    def test_a_torn_sector_may_be_anything_but_no_other_is_touched(self):
        file = File(row("a") + row("b"))
        file.write(1, 0, row("c"))
        states = left(file, "torn")
        self.assertEqual({state[SECTOR:] for state in states}, {row("b")})
        self.assertTrue(any(0 < state[:SECTOR].count(b"c") < SECTOR and set(state[:SECTOR]) == set(b"ac") for state in states))
        self.assertTrue(any(set(state[:SECTOR]) - set(b"ac") for state in states))

    def test_what_is_cut_off_does_not_come_back(self):
        file = File(row("a"))
        file.become(1, 0)
        file.become(2, SECTOR)
        self.assertEqual(left(file, "sector"), {row("a"), b"", bytes(SECTOR)})
        file.settle()
        self.assertEqual(left(file, "sector"), {bytes(SECTOR)})

    def test_a_write_after_a_cut_is_seen_with_the_cut_alone(self):
        file = File(row("a") + row("b"))
        file.become(1, 0)
        file.write(2, 0, row("c"))
        file.become(3, SECTOR)
        self.assertEqual(left(file, "sector"), {row("a") + row("b"), b"", bytes(SECTOR), row("c")})

    def test_a_log_has_what_its_length_says(self):
        log = File(is_log=True)
        log.become(1, 0)
        log.write(2, 0, row("a"))
        log.become(2, SECTOR)
        self.assertEqual(left(log, "sector"), {None, b"", row("a")})
        log.become(3, NO_FILE)
        log.settle()
        self.assertEqual(left(log, "sector"), {None})


class Syncs(unittest.TestCase):
    def disk(self, ignores):
        """A disk after a write, a length and a sync."""
        disk = Disk(row("a"), ignores)
        for event in (Event(WRITE, 0, 1, 0, row("b")), Event(LENGTH, 0, 2, 2 * SECTOR, b""), Event(SYNC, 0, 3, 0, b"")):
            disk.take(event)
        return disk

    def test_a_sync_settles_all(self):
        self.assertEqual(left(self.disk(0).files[0], "sector"), {row("b") + bytes(SECTOR)})

    def test_an_ignored_one_settles_nothing(self):
        self.assertEqual(len(left(self.disk(1).files[0], "sector")), 4)


class Recorder(unittest.TestCase):
    def recorded(self, program):
        """The events of a program in Python that opens a file of four sectors as `fd`."""
        with tempfile.TemporaryDirectory() as folder:
            path, trace = os.path.join(folder, "file"), os.path.join(folder, "trace")
            with open(path, "wb") as file:
                file.write(row("a") * 4)
            begin = f"import os, mmap\nfd = os.open({path!r}, os.O_RDWR)\n"
            subprocess.run([sys.executable, "-c", begin + program], check=True, env=os.environ | {"RECORDED": path, "TRACE": trace, "LD_PRELOAD": RECORDER})
            return [(event.kind, event.at, event.row[:4]) for event in events(trace)]

    def test_what_was_there_is_not_written(self):
        self.assertEqual(self.recorded("mmap.mmap(fd, 2048).flush()"), [(SYNC, 0, b"")])

    def test_stores_are_found_before_a_sync(self):
        self.assertEqual(self.recorded("m = mmap.mmap(fd, 2048)\nm[512:514] = b'bb'\nm.flush()"), [(WRITE, 512, b"bbaa"), (SYNC, 0, b"")])

    def test_writes_are_whole_sectors(self):
        program = "os.pwrite(fd, b'b', 511)\nos.pwrite(fd, b'cc', 1023)\nos.fdatasync(fd)\nos.ftruncate(fd, 100)"
        expected = [(WRITE, 0, b"aaaa"), (WRITE, 512, b"aaaa"), (WRITE, 1024, b"caaa"), (SYNC, 0, b""), (LENGTH, 100, b"")]
        self.assertEqual(self.recorded(program), expected)


if __name__ == "__main__":
    unittest.main()
