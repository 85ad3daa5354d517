"""python3 -m unittest test_kefs: the Python binding, over KEFS_LIBRARY, and images that it makes against those of images.py and of
pagefmt, as tools/built.py finds it or PAGEFMT names it. Images that are not made by the library are of all layouts that are opened; kefscheck alone takes layout 3."""

import ctypes
import errno
import fcntl
import gc
import os
import signal
import struct
import subprocess
import sys
import tempfile
import threading
import time
import unittest

import kefs
from images import LAYOUTS, new_image, new_pool_image, pool_homes, with_journal, with_open_gate, with_open_journal, with_pool

HERE = os.path.dirname(os.path.abspath(__file__))
sys.path.append(os.path.join(HERE, "../../tools"))
from built import built  # noqa: E402

KEFSCHECK = os.path.join(HERE, "../out/kefscheck")
BUILT = built(("pagefmt",))
PAGEFMT = os.environ.get("PAGEFMT") or BUILT and BUILT.path("pagefmt")


def content(path):
    with open(path, "rb") as file:
        return file.read()


def live_images(lengths, pages, read_only=()):
    """Images with these pages, by their homes: of layout 2 in its open journal, and of layout 4 in the pool, where homes are later by those of the directory, under
    either map."""
    pool, later = new_image(lengths, read_only, 4), {4 + home: content for home, content in pages.items()}
    return with_open_journal(new_image(lengths, read_only), pages), with_pool(pool, later, opened=False), with_open_gate(with_pool(pool, later), 4)


def images_of_3(lengths, pages, read_only=()):
    """Images of layout 3 with these pages, by their homes, in either of the journals, which the gate names."""
    new = new_image(lengths, read_only, 3)
    return with_journal(new, pages, 3, opened=False), with_open_journal(new, pages, 3)


LIVE_LAYOUTS = (2, 4, 4)
OF_LAYOUT_3 = "it has layout 3; 'kefscheck upgrade OLD NEW' makes one of layout 4 of it"


class Images(unittest.TestCase):
    def setUp(self):
        folder = tempfile.TemporaryDirectory()
        self.addCleanup(folder.cleanup)
        self.folder, self.path = folder.name, os.path.join(folder.name, "image")

    def opened(self, lengths=(3 * 4096, 5000), flags=0):
        kefs.format(self.path, lengths)
        image = kefs.open(self.path, flags)
        self.addCleanup(image.close)
        return image

    def test_a_new_image_is_as_the_format_says(self):
        kefs.format(self.path, [3 * 4096, kefs.File(5000, read_only=True), 0, 1])
        self.assertEqual(content(self.path), new_image([3 * 4096, 5000, 0, 1], read_only=[1], layout=4))
        for number, (pool, blocks) in enumerate(((1, 1), (1008, 1), (1009, 2), (0, 4), (2064384, 2048))):
            path = self.path + str(number)
            with kefs.open(path, create=[4097, kefs.File(1 << 20, sparse=True)], pool=pool) as image:
                self.assertEqual(image.stat()["most_pages"], 1008 * blocks)
            with open(path, "rb") as file:
                self.assertEqual(file.read(1024), new_pool_image([], blocks=1)[:520] + blocks.to_bytes(4, "little") + new_pool_image([], blocks=1)[524:1024])
            self.assertEqual(blocks > 4 or content(path) == new_pool_image([4097, 1 << 20], blocks=blocks), True)
        with self.assertRaises(OSError) as caught:
            kefs.open(self.path + "9", create=[1], pool=2064385)
        self.assertEqual(caught.exception.errno, errno.EINVAL)
        self.assertRaises(FileExistsError, kefs.format, self.path, [1])
        self.assertRaises(ValueError, kefs.format, self.path + "2", [(1 << 42) + 1])

    def test_a_directory_has_the_places_that_were_asked_for(self):
        for number, (places, count, pages) in enumerate(((0, 2, 4), (1, 2, 1), (16, 17, 2), (65, 2, 5), (0, 65, 5), (4096, 2, 256), (0, 4096, 256))):
            path, files = self.path + str(number), [1 + f % 2 for f in range(count)]
            with kefs.open(path, create=files, places=places) as image:
                for file in {16 * pages - 1} - {count - 1}:
                    image.add_file(file)
                with self.assertRaises(OSError) as caught:
                    image.add_file(16 * pages)
                self.assertEqual((image.stat()["files"], caught.exception.errno), (count + (count < 16 * pages), errno.EINVAL))
            self.assertEqual(content(path), new_pool_image(files, directory=pages))
        with self.assertRaises(OSError) as caught:
            kefs.open(self.path, create=[1], places=4097)
        self.assertEqual((caught.exception.errno, os.path.exists(self.path)), (errno.EINVAL, False))

    def test_files_that_were_added_are_found_again(self):
        files = [8192, kefs.File(1, grows=True)]
        for run in range(3):
            with kefs.open(self.path, create=files) as image, image.transaction():
                self.assertEqual(image.stat()["files"], 2 + run)
                image.resize(1, 100 + run), image.add_file(2 + run, 10)
        self.assertRaises(kefs.OtherFiles, kefs.open, self.path, create=[*files, 10, 11])
        with kefs.open(self.path) as image, image.transaction():
            image.remove_file(0)
        self.assertRaises(kefs.OtherFiles, kefs.open, self.path, create=files)

    def test_a_new_image_is_that_of_pagefmt(self):
        if not PAGEFMT:
            self.skipTest("pagefmt is not built, and prebuilt/ has none for this machine")
        bytes_of_two = os.urandom(9001)
        for name, given in (("two", bytes_of_two), ("three", b"")):
            with open(os.path.join(self.folder, name), "wb") as file:
                file.write(given)
        specs = ["zero:12288", "ro:two", "rw:three", "rw:two", "zero:1"]
        subprocess.run([PAGEFMT, "new4", "made", *specs], cwd=self.folder, check=True)
        two = kefs.File(9001, content=bytes_of_two)
        kefs.format(self.path, [12288, two._replace(read_only=True), 0, two, 1])
        self.assertEqual(content(self.path), content(os.path.join(self.folder, "made")))

    def test_a_transaction_is_durable(self):
        with self.opened() as image:
            view = image.map(0)
            with image.transaction():
                struct.pack_into("<Q", view, 4096, 77)
            view[0] = 9
        with kefs.open(self.path) as image:
            self.assertEqual(struct.unpack_from("<Q", image.map(0), 4096), (77,))
            self.assertEqual(image.map(0)[0], 0)
            self.assertEqual(image.stat()["recovered"], 0)

    def test_an_exception_rolls_back(self):
        with self.opened() as image:
            view, other = image.map(0), image.map(1)
            with self.assertRaises(KeyError):
                with image.transaction(view):
                    view[5] = other[6] = 1
                    raise KeyError
            self.assertEqual((view[5], other[6], image.count_dirty(), image.commit()), (0, 1, 1, 1))

    def test_a_refused_commit_rolls_back(self):
        with self.opened([4050 * 4096]) as image:
            view = image.map(0)
            with self.assertRaises(kefs.TooMany) as caught:
                with image.transaction():
                    for page in range(4050):
                        view[4096 * page] = 1
            self.assertIn("4032", str(caught.exception))
            self.assertEqual((image.count_dirty(), view[4096]), (0, 0))

    def test_ranges(self):
        with self.opened() as image:
            view, other = image.map(0), image.map(1)
            for page in range(3):
                view[4096 * page] = 1
            other[4999] = 1
            self.assertEqual((image.count_dirty(), image.count_dirty(view[4096:8192], other)), (4, 2))
            self.assertEqual(image.commit(view[4096:4097], view[4000:4100], other[4999:]), 3)
            image.rollback(view[8192:])
            self.assertEqual((view[8192], image.count_dirty()), (0, 0))

    def test_a_file_grows(self):
        with self.opened([10, 0]) as image:
            view = image.map(0, most=1 << 20)
            view[9] = 1
            image.resize(0, 5000)
            self.assertRaises(ValueError, lambda: view[0])
            view = image.map(0)
            view[4999] = 2
            self.assertEqual((len(view), view[9], image.length(0), image.count_dirty()), (5000, 1, 5000, 2))
            part = view[4096:]
            self.assertRaises(BufferError, image.resize, 0, 10)
            self.assertRaises(BufferError, image.rollback)
            self.assertEqual((image.commit(), part[903]), (2, 2))
            del part
            image.resize(0, 1)
            with self.assertRaises(OSError) as caught:
                image.resize(0, (1 << 20) + 1)
            self.assertEqual((caught.exception.errno, len(image.map(0))), (errno.ENOMEM, 1))
            image.rollback()
            self.assertEqual((len(image.map(0)), image.map(0)[4999]), (5000, 2))
            empty = image.map(1, most=8192)
            self.assertEqual((len(empty), bytes(empty)), (0, b""))
            image.resize(1, 8192)
            image.map(1)[8191] = 3
            image.commit()
            with self.assertRaises(OSError) as caught:
                image.map(1, most=1 << 20)
            self.assertEqual(caught.exception.errno, errno.EEXIST)
        with kefs.open(self.path, create=[kefs.File(0, grows=True), kefs.File(5, grows=True)]) as image:
            self.assertEqual((image.length(0), image.map(1)[8191]), (5000, 3))
            image.resize(1, 0)
            self.assertEqual((bytes(image.map(1)), image.commit(), image.length(1)), (b"", 0, 0))

    def test_a_transaction_that_resizes_is_rolled_back(self):
        with self.opened([4096]) as image:
            image.map(0, most=1 << 20)
            with self.assertRaises(KeyError):
                with image.transaction():
                    image.resize(0, 8192)
                    image.map(0)[8191] = image.map(0)[0] = 1
                    raise KeyError
            self.assertEqual((bytes(image.map(0)), image.count_dirty()), (bytes(4096), 0))

    def test_files_come_and_go(self):
        with self.opened([4096]) as image:
            image.add_file(5, 4096)
            image.map(5)[0] = 1
            image.rollback()
            self.assertRaises(kefs.NoFile, image.map, 5)
            image.add_file(5, 4096)
            image.map(5)[0] = 2
            with self.assertRaises(OSError) as caught:
                image.remove_file(5)
            self.assertEqual((caught.exception.errno, image.commit()), (errno.EBUSY, 1))
            image.unmap(5)
            with self.assertRaises(OSError) as caught:
                image.lookup("a")
            self.assertEqual(caught.exception.errno, errno.EOPNOTSUPP)
        with kefs.open(self.path) as image:
            self.assertEqual((image.map(5)[0], image.stat()["files"]), (2, 2))
            image.unmap(5)
            image.remove_file(5)
            image.commit()
            self.assertRaises(kefs.NoFile, image.length, 5)
            self.assertRaises(FileExistsError, image.add_file, 0)

    def test_names(self):
        with kefs.open(self.path, names=True) as image:
            with image.transaction():
                self.assertEqual((image.create_file("a", 4096), image.create_file("\u00e4\udcff", 1), image.names()), (1, 2, {"a": 1, "\u00e4\udcff": 2}))
                image.map(1)[0] = 1
            with self.assertRaises(KeyError):
                with image.transaction():
                    image.rename("\u00e4\udcff", "b")
                    image.map(image.create_file("c", 8192))[0] = 1
                    raise KeyError
            self.assertEqual(image.names(), {"a": 1, "\u00e4\udcff": 2})
            self.assertRaises(kefs.NoFile, image.lookup, "c")
            self.assertRaises(ValueError, image.lookup, "a\0b")
            self.assertRaises(FileExistsError, image.create_file, "a")
            with self.assertRaises(OSError) as caught:
                image.create_file("n" * 256)
            self.assertEqual(caught.exception.errno, errno.ENAMETOOLONG)
            image.unlink(b"\xc3\xa4\xff")
            image.rename("a", "b")
            image.commit()
        with kefs.open(self.path, names=True) as image:
            self.assertEqual((image.names(), image.map(image.lookup("b"))[0]), ({"b": 1}, 1))
        with kefs.open(self.path, kefs.RDONLY) as image:
            self.assertRaises(kefs.ReadOnly, image.unlink, "b")
            self.assertEqual((image.names(), bytes(image.map(0)[:13])), ({"b": 1}, b"kefs names 1\0"))
        kefs.format(self.path + "2", [1])
        self.assertRaises(kefs.OtherFiles, kefs.open, self.path + "2", names=True)

    def test_a_tidy(self):
        with self.opened() as image:
            image.map(0)[0] = 1
            image.commit()
            image.map(0)[1] = 2
            image.tidy()
            self.assertEqual((image.count_dirty(), subprocess.run([KEFSCHECK, self.path], capture_output=True, text=True).stdout.count(" 0 pages in 4032 slots")), (1, 1))
        with kefs.open(self.path) as image:
            self.assertEqual(bytes(image.map(0)[:2]), b"\1\0")

    def test_started_commits(self):
        with self.opened() as image:
            view, other = image.map(0), image.map(1)
            view[0] = view[4096] = other[0] = 1
            first = image.commit_start(view[:1], other)
            view[0] = 2
            second = image.commit_start(view)
            view[0] = 3
            self.assertEqual((first.pages, second.pages, image.count_dirty(), image.stat()["commits"]), (2, 2, 1, 0))
            first.wait(), second.wait(), second.wait()
            self.assertEqual(image.stat()["commits"], 1)
            image.rollback()
            self.assertEqual(view[0], 2)
            view[1] = 4
            last = image.commit_start()
        self.assertRaises(ValueError, last.wait)
        with kefs.open(self.path) as image:
            self.assertEqual((bytes(image.map(0)[:2]), image.map(0)[4096], image.map(1)[0]), (b"\2\4", 1, 1))

    def test_threads_wait_together(self):
        with self.opened() as image:
            view, lock = image.map(0), threading.Lock()

            def add():
                for _ in range(30):
                    with lock:
                        view[0] += 1
                        started = image.commit_start()
                    started.wait()

            threads = [threading.Thread(target=add) for _ in range(8)]
            for thread in threads:
                thread.start()
            for thread in threads:
                thread.join()
            self.assertLess(image.stat()["commits"], 240)
        with kefs.open(self.path) as image:
            self.assertEqual(image.map(0)[0], 240)

    def test_a_caller_names_its_stores(self):
        with self.opened(flags=kefs.TRACK_CALLER | kefs.LAZY) as image:
            view = image.map(0)
            view[0] = view[8192] = 1
            image.touch(view)
            self.assertEqual(image.commit(), 0)
            image.mark_dirty(view[8192:8193])
            self.assertEqual((image.commit(), image.stat()["tracker"]), (1, "caller"))

    def test_a_reader(self):
        for image in live_images([2 * 4096], {1: b"j" * 4096}):
            self.read_beside_another(image)

    def read_beside_another(self, before):
        with open(self.path, "wb") as file:
            file.write(before)
        for flags in (kefs.RDONLY, kefs.RDONLY | kefs.LAZY):
            with kefs.open(self.path, flags) as image, kefs.open(self.path, flags | kefs.NOWAIT) as beside:
                self.assertEqual(bytes(image.map(0)), bytes(4096) + b"j" * 4096)
                self.assertRaises(kefs.ReadOnly, beside.commit)
                self.assertRaises(kefs.Busy, kefs.open, self.path, kefs.NOWAIT)
        self.assertEqual(content(self.path), before)

    def test_a_snapshot_beside_a_writer(self):
        with self.opened() as image, kefs.open(self.path, kefs.SNAPSHOT, wait=100) as reader:
            view, seen = image.map(0), reader.map(0)
            part = seen[4096:]
            with image.transaction():
                view[4096] = 5
            self.assertEqual((part[0], reader.refresh(), part[0], seen[4096], reader.refresh()), (0, True, 5, 5, False))
            self.assertRaises(TypeError, seen.__setitem__, 0, 1)
            self.assertRaises(kefs.ReadOnly, reader.commit)
            with self.assertRaises(OSError) as caught:
                image.refresh()
            self.assertEqual(caught.exception.errno, errno.EINVAL)
            self.assertRaises(BufferError, reader.close)
            part.release()
            del part
            reader.close()
            self.assertRaises(ValueError, reader.refresh)
            self.assertRaises(ValueError, lambda: seen[0])

    def test_a_snapshot_follows_lengths(self):
        with kefs.open(self.path, names=True) as image, kefs.open(self.path, kefs.SNAPSHOT) as reader:
            for name in ("a", "b", "c"):
                image.map(image.create_file(name, 8192), most=1 << 20)[:] = b"x" * 8192
            image.commit()
            self.assertEqual((reader.refresh(), reader.names()), (True, {"a": 1, "b": 2, "c": 3}))
            first, second, third = reader.map(1), reader.map(2), reader.map(3, most=1 << 20)
            part = second[4000:]
            image.resize(1, 4096), image.resize(2, 100), image.resize(3, 12288)
            image.map(3)[12287] = 1
            image.commit()
            self.assertEqual((bytes(part), reader.refresh()), (b"x" * 4192, True))
            self.assertRaises(ValueError, lambda: first[0])
            self.assertRaises(ValueError, lambda: third[0])
            self.assertEqual((bytes(part), len(reader.map(1)), bytes(second[:101])), (bytes(4192), 4096, b"x" * 100 + b"\0"))
            self.assertEqual((len(reader.map(3)), reader.map(3)[12287]), (12288, 1))
            image.unmap(1)
            image.unlink("a")
            image.commit()
            del part
            reader.refresh()
            self.assertEqual((len(reader.map(2)), reader.names()), (100, {"b": 2, "c": 3}))
            self.assertRaises(kefs.NoFile, reader.map, 1)

    def test_a_snapshot_of_a_replaced_image(self):
        self.opened().close()
        with kefs.open(self.path, kefs.SNAPSHOT) as reader:
            os.unlink(self.path)
            with self.assertRaises(OSError) as caught:
                reader.refresh()
            self.assertEqual(caught.exception.errno, errno.ESTALE)

    def test_read_only_views_take_no_store(self):
        kefs.format(self.path, [1, kefs.File(4, read_only=True, content=b"abcd")])
        with kefs.open(self.path) as image:
            image.map(0)[0] = 1
            self.assertRaises(TypeError, image.map(1).__setitem__, 0, 1)
            self.assertEqual((bytes(image.map(1)), image.commit()), (b"abcd", 1))
        with kefs.open(self.path, kefs.RDONLY | kefs.LAZY) as image:
            self.assertRaises(TypeError, image.map(0).__setitem__, 0, 1)
            image.touch(image.map(0))
            self.assertEqual(bytes(image.map(0)), b"\1")

    def test_results_are_exceptions(self):
        with self.opened() as image:
            self.assertRaises(kefs.NoFile, image.map, 2)
            self.assertRaises(kefs.NoFile, image.unmap, 0)
            self.assertRaises(kefs.BadRange, image.mark_dirty, memoryview(bytearray(1)))
            self.assertRaises(kefs.Busy, kefs.open, self.path, kefs.NOWAIT)
            self.assertEqual(image.length(1), 5000)
        self.assertRaises(ValueError, image.commit)
        self.assertRaises(FileNotFoundError, kefs.open, self.path + "2")
        with open(self.path + "2", "wb") as file:
            file.write(b"no image")
        self.assertRaises(kefs.NotImage, kefs.open, self.path + "2")
        self.assertEqual(kefs.version() // 1000000, 2)

    def test_a_closed_view_is_refused(self):
        image = self.opened()
        view = image.map(0)
        image.unmap(0)
        self.assertRaises(ValueError, lambda: view[0])
        view = image.map(0)
        image.close()
        image.close()
        self.assertRaises(ValueError, lambda: view[0])

    def test_a_view_in_use_keeps_the_image_open(self):
        image = self.opened()
        view, other = image.map(0), image.map(1)
        part = view[4096:8192]
        part[0] = 5
        with self.assertRaises(BufferError):
            image.close()
        self.assertRaises(BufferError, image.unmap, 0)
        view[1] = other[0] = part[1] = 6  # nothing was released
        self.assertEqual((image.commit(), part[0]), (3, 5))
        again = part.cast("H")
        part.release()
        self.assertRaises(BufferError, image.close)
        self.assertEqual(again[0], 6 << 8 | 5)
        del again
        whole = memoryview(view)
        self.assertRaises(BufferError, image.close)
        whole.release()
        del whole, part
        image.close()
        self.assertRaises(ValueError, lambda: view[0])
        with kefs.open(self.path) as image:
            self.assertEqual(bytes(image.map(0)[4096:4098]), b"\5\6")

    def test_an_array_over_a_view_keeps_the_image_open(self):
        image = self.opened()
        array = (ctypes.c_ubyte * 4096).from_buffer(image.map(0))
        self.assertRaises(BufferError, image.close)
        array[0] = 9
        self.assertEqual((image.commit(), image.map(0)[0]), (1, 9))
        del array
        gc.collect()
        image.close()
        image = kefs.open(self.path)
        self.addCleanup(image.close)
        of_released = image.map(0)
        part = of_released[1:]
        of_released.release()
        self.assertRaises(BufferError, image.close)
        self.assertEqual((image.map(0)[0], part[0]), (9, 0))
        del part

    def test_a_with_that_leaves_a_slice_behind_does_not_crash(self):
        program = "import kefs, sys\nwith kefs.open(sys.argv[1]) as image:\n    part = image.map(0)[5:]\n"
        self.opened().close()
        done = subprocess.run([sys.executable, "-c", program, self.path], capture_output=True, text=True)
        self.assertEqual((done.returncode, done.stderr.strip().split("\n")[-1][:11]), (1, "BufferError"))

    def test_an_opening_makes_an_image(self):
        for _ in range(2):
            with kefs.open(self.path, create=[5, kefs.File(5 << 30, sparse=True)]) as image, image.transaction():
                image.map(0)[0] += 1
        self.assertLess(os.stat(self.path).st_blocks * 512, 8 << 20)
        with kefs.open(self.path) as image:
            self.assertEqual((image.map(0)[0], image.length(1)), (2, 5 << 30))
            with self.assertRaises(kefs.Busy) as caught:
                kefs.open(self.path, wait=20)
            self.assertIn("this thread has", str(caught.exception))
        with self.assertRaises(kefs.OtherFiles):
            kefs.open(self.path, create=[6, kefs.File(5 << 30, sparse=True)])

    def test_layout_3_is_not_opened(self):
        for before in images_of_3([2 * 4096], {1: b"j" * 4096}):
            with open(self.path, "wb") as file:
                file.write(before)
            for flags in (0, kefs.RDONLY, kefs.RDONLY | kefs.LAZY, kefs.SNAPSHOT, kefs.TRACK_SIGNAL):
                with self.assertRaises(kefs.NotImage) as caught:
                    kefs.open(self.path, flags)
                self.assertIn(f"{self.path}: {OF_LAYOUT_3}", str(caught.exception))
            self.assertRaises(kefs.NotImage, kefs.open, self.path, create=[2 * 4096])
            self.assertEqual(content(self.path), before)

    def test_images_of_all_layouts(self):
        for number, before in enumerate(live_images([2 * 4096, 5000], {1: b"j" * 4096, 3: b"k" * 4096})):
            with open(self.path, "wb") as file:
                file.write(before)
            with kefs.open(self.path) as image:
                layout = LIVE_LAYOUTS[number]
                self.assertEqual((image.stat()["layout"], image.stat()["recovered"]), (layout, 0 if layout == 4 else 2))
                self.assertEqual((bytes(image.map(0)), bytes(image.map(1))), (bytes(4096) + b"j" * 4096, bytes(4096) + b"k" * 904))
                with image.transaction():
                    image.map(0)[5] = 7
                image.backup(self.path + str(number))
            with kefs.open(self.path) as image, kefs.open(self.path + str(number)) as copy:
                self.assertEqual((image.map(0)[5], bytes(copy.map(0)), bytes(copy.map(1))), (7, bytes(image.map(0)), bytes(image.map(1))))
                self.assertEqual((copy.stat()["layout"], copy.stat()["recovered"]), (4, 0))
            made = content(self.path + str(number))
            self.assertEqual(made[: 512 * pool_homes(made) + 16384], new_image([2 * 4096, 5000], layout=4)[: 512 * pool_homes(made) + 16384])

    def test_a_new_image_takes_room(self):
        length = 512 * (16 + 8080 * 4) + 5 * 4096
        for name, file, room in (("1", 4096, length), ("2", kefs.File(4096, sparse=True), 40960)):
            kefs.format(self.path + name, [file])
            facts = os.stat(self.path + name)
            self.assertEqual(facts.st_size, length)
            self.assertIn(facts.st_blocks * 512 - room, (0, 4096))  # some file systems count a block of their own

    def test_a_backup(self):
        with self.opened() as image:
            view = image.map(0)
            view[0] = 1
            image.commit()
            view[0] = 2
            image.backup(self.path + "2")
            self.assertRaises(FileExistsError, image.backup, self.path + "2")
            self.assertEqual((image.recover(), image.count_dirty()), (kefs.BEFORE, 1))
        with kefs.open(self.path + "2") as image:
            self.assertEqual((image.map(0)[0], image.length(1)), (1, 5000))

    def test_threads_that_call_while_it_is_closed(self):
        image = self.opened()
        view, seen = image.map(0), []

        def commit_for_ever():
            try:
                while True:
                    image.commit()
            except ValueError as error:
                seen.append(error)

        threads = [threading.Thread(target=commit_for_ever) for _ in range(3)]
        for thread in threads:
            thread.start()
        for number in range(50):
            view[number] = 1
        image.close()
        for thread in threads:
            thread.join()
        self.assertEqual(len(seen), 3)

    def test_a_child_has_views_of_nothing(self):
        image = self.opened()
        view = image.map(0)
        part = view[10:20]
        part[0] = 7
        child = os.fork()
        if child == 0:
            try:
                view[0]
            except ValueError:
                os._exit(0 if part[0] == 0 else 2)
            os._exit(1)
        self.assertEqual((os.waitpid(child, 0)[1], part[0]), (0, 7))
        del part

    def test_a_child_keeps_the_memory_that_it_has_by_then(self):
        program = """if True:
            import mmap, os, sys
            held = []
            def take():
                for _ in range(64):
                    held.append(mmap.mmap(-1, 1 << 20))
                    held[-1][:] = b"\\1" * (1 << 20)
            os.register_at_fork(after_in_child=take)
            import kefs
            image = kefs.open(sys.argv[1], int(sys.argv[2]))
            view = image.map(0)
            child = os.fork()
            if child == 0:
                os._exit(0 if all(it.find(b"\\0") < 0 for it in held) else 9)
            sys.exit(os.waitpid(child, 0)[1] != 0)
        """
        kefs.format(self.path, [16 << 20])
        for flags in (0, kefs.TRACK_SIGNAL, kefs.SNAPSHOT):
            self.assertEqual(subprocess.run([sys.executable, "-c", program, self.path, str(flags)]).returncode, 0)

    def test_a_dropped_image_is_closed(self):
        kefs.format(self.path, [4096])
        part = kefs.open(self.path).map(0)[10:20]
        with self.assertRaises(kefs.Busy):
            kefs.open(self.path, kefs.NOWAIT)
        part[0] = 1
        del part
        kefs.open(self.path, kefs.NOWAIT).close()

    def test_a_wait_goes_on_after_a_signal(self):
        kefs.format(self.path, [4096])
        holders, seen = [], []
        thread = threading.Thread(target=lambda: holders.append(kefs.open(self.path)))
        thread.start(), thread.join()
        before = signal.signal(signal.SIGALRM, lambda *_: seen.append(1))
        self.addCleanup(signal.signal, signal.SIGALRM, before)
        signal.setitimer(signal.ITIMER_REAL, 0.02, 0.02)
        start = time.monotonic()
        self.assertRaises(kefs.Busy, kefs.open, self.path, wait=200)
        signal.setitimer(signal.ITIMER_REAL, 0)
        self.assertGreater((len(seen), time.monotonic() - start), (2, 0.19))
        holders[0].close()

    def test_a_refresh_under_signals_ends(self):
        kefs.format(self.path, [4096])
        before = signal.signal(signal.SIGALRM, lambda *_: None)
        self.addCleanup(signal.signal, signal.SIGALRM, before)
        with kefs.open(self.path, kefs.SNAPSHOT, wait=200) as reader, open(self.path, "r+b") as file:
            fcntl.flock(file, fcntl.LOCK_EX)
            os.utime(self.path)
            signal.setitimer(signal.ITIMER_REAL, 0.02, 0.02)
            self.addCleanup(signal.setitimer, signal.ITIMER_REAL, 0)
            start = time.monotonic()
            self.assertRaises(kefs.Busy, reader.refresh)
            signal.setitimer(signal.ITIMER_REAL, 0)
            self.assertGreater(time.monotonic() - start, 0.19)

    def test_a_child_has_no_image(self):
        image = self.opened()
        image.map(0)[0] = 1
        child = os.fork()
        if child == 0:
            try:
                image.commit()
            except kefs.Forked:
                os._exit(0)
            os._exit(1)
        self.assertEqual(os.waitpid(child, 0)[1], 0)
        self.assertEqual(image.commit(), 1)


class Checks(unittest.TestCase):
    """kefscheck, of images that are made, torn and in use."""

    def setUp(self):
        folder = tempfile.TemporaryDirectory()
        self.addCleanup(folder.cleanup)
        self.path = os.path.join(folder.name, "image")

    def told(self, *words):
        done = subprocess.run([KEFSCHECK, *words], capture_output=True)
        return done.returncode, done.stdout, done.stderr.decode()

    def told_of(self, image):
        with open(self.path, "wb") as file:
            file.write(image)
        before = content(self.path)
        status, lines, _ = self.told(self.path)
        self.assertEqual(content(self.path), before)
        return status, lines.decode().splitlines()[1:]

    def test_a_whole_image(self):
        images = live_images([8192, 5000, 0], {1: b"j" * 4096, 3: b"k" * 4096}, read_only=[1])
        files = ["file 0: 8192 bytes, 2 pages from home 0 on", "file 1: 5000 bytes, 2 pages from home 2 on, read-only"]
        files.append("file 2: 0 bytes, 0 pages from home 4 on")
        later = ["file 0: 8192 bytes, 2 pages from home 4 on", "file 1: 5000 bytes, 2 pages from home 6 on, read-only", "file 2: 0 bytes, 0 pages"]
        journals = ["journal: open, 2 pages"] + [f"pool: map {it} of two, 2 pages in 4032 slots" for it in (0, 1)]
        for image, layout, journal in zip(images, LIVE_LAYOUTS, journals):
            homes, told = ("8 pages, 0 of them free, places for 64 files", later) if layout == 4 else ("4 pages", files)
            self.assertEqual(self.told_of(image), (0, [f"layout: {layout}, {homes}", *told, journal, "would open: yes"]))
            self.assertEqual(self.told("dump", self.path, "0"), (0, bytes(4096) + b"j" * 4096, ""))
            self.assertEqual(self.told("dump", self.path, "1"), (0, bytes(4096) + b"k" * 904, ""))
            self.assertEqual(self.told("dump", self.path, "3")[0], 1)
        self.assertEqual(self.told_of(new_image([1]))[1][2:], ["journal: closed", "would open: yes"])
        for number, image in enumerate(images_of_3([8192, 5000, 0], {1: b"j" * 4096, 3: b"k" * 4096}, read_only=[1])):
            last = [f"journal: {number} of two, 2 pages", f"would open: no, KEFS_NOT_IMAGE: {OF_LAYOUT_3}"]
            self.assertEqual(self.told_of(image), (1, ["layout: 3, 4 pages", *files, *last]))
            self.assertEqual(self.told("dump", self.path, "0"), (1, b"", f"kefscheck: {self.path}: {self.path}: {OF_LAYOUT_3}: the file has no layout of a store\n"))

    def test_an_upgrade(self):
        given = [8192, 5000, 0], {1: b"j" * 4096, 3: b"k" * 4096}
        images = *images_of_3(*given, read_only=[1]), *live_images(*given, read_only=[1])
        later = ["file 0: 8192 bytes, 2 pages from home 4 on", "file 1: 5000 bytes, 2 pages from home 6 on, read-only", "file 2: 0 bytes, 0 pages"]
        for n, (image, layout) in enumerate(zip(images, (3, 3, *LIVE_LAYOUTS))):
            new = f"{self.path}{n}"
            with open(self.path, "wb") as file:
                file.write(image)
            os.chmod(self.path, 0o640)
            status, lines, error = self.told("upgrade", self.path, new)
            self.assertEqual(content(self.path), image)
            if layout == 4:
                self.assertEqual((status, error, os.path.exists(new)), (1, f"kefscheck: {self.path}: it has layout 4 already\n", False))
                continue
            self.assertEqual((status, lines, error, os.stat(new).st_mode & 0o777), (0, b"", "", 0o640))
            told = ["layout: 4, 8 pages, 0 of them free, places for 64 files", *later, "pool: map 0 of two, 0 pages in 4032 slots", "would open: yes"]
            self.assertEqual(self.told(new)[1].decode().splitlines()[1:], told)
            self.assertEqual(self.told("dump", new, "0"), (0, bytes(4096) + b"j" * 4096, ""))
            self.assertEqual(self.told("dump", new, "1"), (0, bytes(4096) + b"k" * 904, ""))
            self.assertEqual(self.told("upgrade", self.path, new)[0], 1)

    def test_an_image_in_use(self):
        with kefs.open(self.path, create=[4096]) as image:
            image.map(0)[0] = 65
            image.commit()
            status, lines, _ = self.told(self.path)
            self.assertEqual((status, lines.decode().splitlines()[-3:]), (1, ["pool: map 1 of two, 1 pages in 4032 slots", f"in use: by process {os.getpid()}", "would open: not now"]))
            self.assertEqual(self.told("dump", self.path, "0")[::2], (1, f"kefscheck: {self.path}: process {os.getpid()} has {self.path}: another process or handle has the image open\n"))

    def test_damaged_images(self):
        for layout, other, words in ((2, 3, "sector 0 is the mark of layout 3, and sector 1 is not its kind"),
                                     (3, 2, "sector 0 is the mark of layout 2, and sector 1 the kind of layout 3")):
            whole, places = with_open_journal(new_image([8192, 5000], layout=layout), {1: bytes(4096)}, layout), LAYOUTS[layout]
            directory, journal = 512 * places.directory, 512 * places.journals[1]
            damages = {
                (0, b"X"): "sector 0 is not the mark",
                (0, LAYOUTS[other].mark * 64): words,
                (directory + 4, b"\xff\xff"): "file 0 does not end within",
                (directory + 8, b"\1"): "files 0 and 1 share a page",
                (directory + 80, b"\1"): "entry 10 of the directory is of no file",
                (journal, b"\0\4"): "the journal has 1024 pages",
                (journal + 4, b"\4"): "page 0 of the journal has no home",
                (journal, b"\2\0\0\0\1\0\0\0\1"): "pages 0 and 1 of the journal have one home",
            }
            try_one = self.try_damaged if layout == 2 else self.try_damaged_3
            for (at, damage), reason in damages.items():
                try_one(whole[:at] + damage + whole[at + len(damage) :], at >= journal, reason)
            reason = f"it has 100 sectors, under {places.homes}"
            self.assertEqual(self.told_of(whole[: 512 * 100])[1], [f"would open: no, KEFS_NOT_IMAGE: {reason if layout == 2 else OF_LAYOUT_3}"])
        self.assertEqual(self.told_of(b"")[1], ["would open: no, KEFS_NOT_IMAGE: it has less than a sector"])
        self.assertIn("upgrade", self.told_of(new_image([1], layout=1))[1][0])

    def test_damaged_pools(self):
        whole = new_image([8192, 5000], layout=4)
        directory = 512 * pool_homes(whole)
        damages = {
            (0, b"X"): "sector 0 is not the mark",
            (0, b"FAMSYNC3" * 64): "sector 0 is the mark of layout 3, and sector 1 the kind of layout 4",
            (520, b"\0"): "sector 0 is the mark of layout 4, and sector 1 is not its kind",
            (521, b"\10"): "sector 0 is the mark of layout 4, and sector 1 is not its kind",
            (524, b"\5"): "file 0 has a home of the directory",
            (directory, b"\2"): "entry 0 of the directory has flags that no file has",
            (directory, b"\0"): "entry 0 of the directory is of no file, and not zero",
            (directory + 4, b"\37"): "entry 0 of the directory has over 30 extents",
            (directory + 4, b"\0"): "file 0 has more pages than homes",
            (directory + 9, b"\x30"): "file 0 has more pages than homes",
            (directory + 12, b"\1"): "file 0 has more pages than homes",
            (directory + 13, b"\4"): "file 0 has over 2^42 bytes",
            (directory + 16, b"\7"): "file 0 does not end within the image",
            (directory + 20, b"\3"): "files 0 and 1 share a page",
            (directory + 256 * 10 + 255, b"\1"): "entry 10 of the directory is of no file, and not zero",
        }
        for (at, damage), reason in damages.items():
            self.try_damaged(whole[:at] + damage + whole[at + len(damage) :], False, reason)
        self.assertEqual(self.told_of(whole[: directory + 512])[1], [f"would open: no, KEFS_NOT_IMAGE: it has {pool_homes(whole) + 1} sectors, under {pool_homes(whole) + 32}"])

    def test_files_of_many_extents(self):
        pieces, homes = [(20, 1), (9, 0), (4, 3), (1 << 31, 0), (30, 2)], [20, 4, 5, 6, 30, 31]
        image = bytearray(new_pool_image([20 * 4096, 30 * 4096], blocks=1))
        entry = b"".join(it.to_bytes(4, "little") for it in (1, len(pieces), 6 * 4096 - 10, 0, *sum(pieces, ())))
        start = 512 * pool_homes(image)
        image[start:start + 512] = entry.ljust(512, b"\0")
        for number, home in enumerate(homes):
            image[start + 4096 * home:start + 4096 * (home + 1)] = bytes([65 + number]) * 4096
        image = with_pool(bytes(image), {5: b"x" * 4096, 31: b"y" * 4096}, opened=False)
        wanted = b"A" * 4096 + b"B" * 4096 + b"x" * 4096 + b"D" * 4096 + b"E" * 4096 + b"y" * 4086
        extents = ", ".join(f"from home {it} on" for it, _ in pieces)
        told = ["layout: 4, 54 pages, 44 of them free, places for 64 files", f"file 0: 24566 bytes, 6 pages {extents}"]
        self.assertEqual((self.told_of(image)[0], self.told_of(image)[1][:2]), (0, told))
        self.assertEqual(self.told("dump", self.path, "0"), (0, wanted, ""))
        for flags in (kefs.RDONLY, kefs.LAZY, kefs.SNAPSHOT, kefs.TRACK_SIGNAL):
            with kefs.open(self.path, flags) as opened:
                self.assertEqual(bytes(opened.map(0)), wanted)
        with kefs.open(self.path) as opened, kefs.open(self.path, kefs.SNAPSHOT) as reader:
            view, seen = opened.map(0), reader.map(0)
            for page in (0, 1, 5):
                view[4096 * page] = 90
            opened.commit()
            self.assertEqual((reader.refresh(), bytes(seen)), (True, bytes(view)))
            opened.backup(self.path + "2")
        with kefs.open(self.path + "2") as copy, kefs.open(self.path) as opened:
            self.assertEqual((bytes(copy.map(0)), copy.map(0)[4096]), (bytes(opened.map(0)), 90))

    def try_damaged(self, image, is_journal, reason):
        status, lines = self.told_of(image)
        name = "KEFS_BAD_JOURNAL" if is_journal else "KEFS_NOT_IMAGE"
        self.assertEqual((status, lines[-1].startswith(f"would open: no, {name}: {reason}")), (1, True), lines)
        self.assertRaises(kefs.BadJournal if is_journal else kefs.NotImage, kefs.open, self.path)

    def try_damaged_3(self, image, is_journal, reason):
        lines = self.told_of(image)[1]
        told = OF_LAYOUT_3 if image.startswith(b"FAMSYNC3") else reason
        self.assertEqual(lines[-1].startswith(f"would open: no, KEFS_NOT_IMAGE: {told}"), True, lines)
        self.assertRaises(kefs.NotImage, kefs.open, self.path)
        status, _, words = self.told("upgrade", self.path, self.path + "2")
        kind = "the image's journal has a map that no commit writes" if is_journal else "the file has no layout of a store"
        self.assertEqual((status, os.path.exists(self.path + "2"), f": {reason}" in words, words.endswith(f": {kind}\n")), (1, False, True, True), words)

    def test_names_are_told(self):
        with kefs.open(self.path, names=True) as image:
            image.create_file("a", 8192), image.create_file(b"b\n\"\xc3\xa4", 1), image.add_file(9, 3)
            image.commit()
        told = self.told(self.path)[1].decode().splitlines()[1:]
        files = [line.split(":")[0] for line in told if line.startswith("file")]
        self.assertEqual((files, told[-1]), (["file 0 (names)", 'file 1 "a"', 'file 2 "b\\x0a\\x22\u00e4"', "file 9"], "would open: yes"))

    def test_other_words(self):
        self.assertEqual(self.told()[0], 2)
        self.assertEqual(self.told("dump", self.path, "x")[0], 2)
        self.assertEqual(self.told(self.path)[0], 1)


if __name__ == "__main__":
    unittest.main()
