"""Tests of kefsrun without -m: a data file that grows, and programs of others that have theirs grow: python3 -m unittest test_growing. It needs cc."""
import errno
import itertools
import os
import random
import shutil
import signal
import subprocess
import sys
import unittest

import test_kefsrun
from test_kefsrun import CASES, HERE, KEFSRUN, setUpModule  # noqa: F401: unittest calls it here too

sys.path.insert(1, os.path.join(HERE, ".."))
from images import new_image  # noqa: E402

IMAGECAT = os.path.join(HERE, "..", "..", "tools", "imagecat")
KILL = "os.kill(os.getpid(), signal.SIGKILL)\n"


class Grows(test_kefsrun.Runs):
    """Each test has a data file without a greatest length of its own."""

    def kefsrun(self, *words, options=(), **environment):
        return super().kefsrun(*words, options=options, **environment)

    def apart(self):
        """The data file's bytes by a reader that shares no code with the library."""
        return subprocess.run([sys.executable, IMAGECAT, self.image, "0"], capture_output=True, check=True).stdout

    def killed(self, text):
        """Runs a program in Python that kills itself at its end; what is durable then."""
        done = self.python(text + KILL)
        self.assertEqual((done.returncode, done.stderr), (-signal.SIGKILL, ""))
        return self.apart()


class Lengths(Grows):
    """What becomes of lengths."""

    def test_calls(self):
        script = os.path.join(HERE, "calls.py")
        for seed in range(20, 28):
            plain, words = os.path.join(self.folder, f"plain.{seed}"), (str(seed), "300")
            expected = subprocess.run([sys.executable, script, plain, *words], capture_output=True, text=True, check=True)
            done = self.kefsrun(sys.executable, script, self.data, *words, KEFS_TRACKER="signal" if seed % 2 else "scan")
            self.assertEqual((done.returncode, done.stderr, done.stdout), (0, "", expected.stdout))
            with open(plain, "rb") as file:
                self.assertEqual(self.apart(), file.read())
            os.unlink(self.image)

    def test_calls_and_kills(self):
        script, rng = os.path.join(HERE, "calls.py"), random.Random(1)
        for seed in range(30, 42):
            plain, words = os.path.join(self.folder, f"plain.{seed}"), (str(seed), str(rng.randrange(30, 150)))
            expected = subprocess.run([sys.executable, script, plain, *words, "synced"], capture_output=True, text=True, check=True)
            done = self.kefsrun(sys.executable, script, self.data, *words, "killed", KEFS_TRACKER="signal" if seed % 2 else "scan")
            self.assertEqual((done.returncode, done.stderr, done.stdout), (-signal.SIGKILL, "", expected.stdout))
            with open(f"{plain}.synced", "rb") as file:
                self.assertEqual(self.apart(), file.read())
            os.unlink(self.image)

    def test_images_of_older_kefsruns(self):
        script = os.path.join(HERE, "calls.py")
        for layout in (4, 2):
            plain = os.path.join(self.folder, f"plain.{layout}")
            with open(self.image, "wb") as image:
                image.write(new_image([1 << 16, 4096], layout=layout))
            for words in (("1", "200"), ("2", "200")):
                expected = subprocess.run([sys.executable, script, plain, *words], capture_output=True, text=True, check=True)
                done = self.kefsrun(sys.executable, script, self.data, *words)
                self.assertEqual((done.returncode, done.stderr, done.stdout), (0, "", expected.stdout))
            with open(plain, "rb") as file:
                self.assertEqual(self.python("print(os.pread(fd, 1 << 16, 0).hex())").stdout.strip(), file.read().hex())
            self.says(self.python("os.ftruncate(fd, (1 << 16) + 1)"), 1, os.strerror(errno.EFBIG))

    def test_an_import_of_an_older_kefsrun_is_ended(self):
        content = b"Ada 1815"
        image = bytearray(new_image([1 << 16, 4096], layout=2))
        first = len(image) - (1 << 16) - 4096
        image[first:first + len(content)] = content
        image[first + (1 << 16):first + (1 << 16) + 8] = len(content).to_bytes(8, "little")
        for path, has in ((self.image, image), (self.data, content)):
            with open(path, "wb") as file:
                file.write(has)
        self.says(self.kefsrun("true"), 125, "the same words again end it")
        done = self.kefsrun("cat", self.data, options=("-i",))
        self.assertEqual((done.returncode, done.stdout, done.stderr), (0, "Ada 1815", ""))

    def test_images_of_others(self):
        for lengths in ([], [4096], [4096, 4], [4096, 7], [0, 4096]):
            with self.subTest(lengths=lengths):
                with open(self.image, "wb") as image:
                    image.write(new_image(lengths, layout=4))
                self.says(self.python(""), 1, "are not those of an image that kefsrun makes")

    def test_a_length_is_durable_with_its_bytes(self):
        self.assertEqual(self.killed("os.pwrite(fd, b'x' * 5000, 0)\n"), b"")
        self.assertEqual(self.killed("os.pwrite(fd, b'x' * 5000, 0)\nos.fsync(fd)\nos.pwrite(fd, b'y' * 9000, 100)\n"), b"x" * 5000)
        self.assertEqual(self.killed("os.ftruncate(fd, 4500)\n"), b"x" * 5000)
        self.assertEqual(self.killed("os.ftruncate(fd, 4500)\nos.fsync(fd)\nos.open(path, os.O_RDWR | os.O_TRUNC)\n"), b"x" * 4500)
        self.assertEqual(self.killed("os.ftruncate(fd, 100)\nos.ftruncate(fd, 70000)\nos.fsync(fd)\n"), b"x" * 100 + bytes(69900))
        self.assertEqual(self.killed("os.posix_fallocate(fd, 0, 80000)\nos.pwrite(fd, b'z', 79999)\nos.fsync(fd)\n"), (b"x" * 100).ljust(79999, b"\0") + b"z")
        self.assertEqual(self.killed("os.fsync(os.open(path, os.O_RDWR | os.O_TRUNC))\n"), b"")

    def test_a_mapping_that_grows_is_durable(self):
        text = (
            "os.ftruncate(fd, 4096)\n"
            "m = mmap.mmap(fd, 4096)\n"
            "for pages in (2, 50, 1000):\n"
            "    os.ftruncate(fd, 4096 * pages)\n"
            "    m.resize(4096 * pages)\n"
            "    m[4096 * pages - 1] = pages % 256\n"
            "    m.flush()\n"
        )
        content = self.killed(text)
        self.assertEqual(len(content), 4096000)
        self.assertEqual([content[4096 * pages - 1] for pages in (2, 50, 1000)], [2, 50, 1000 % 256])
        self.assertEqual(sum(byte != 0 for byte in content), 3)

    def test_an_image_has_no_room_for_what_is_not_there(self):
        self.assertEqual(self.killed(""), b"")
        self.assertLess(os.path.getsize(self.image), 20 << 20)
        self.killed("for k in range(40): os.pwrite(fd, b'x' * (1 << 20), k << 20)\nos.fsync(fd)\n")
        self.assertGreater(os.path.getsize(self.image), 56 << 20)

    def test_the_greatest_length(self):
        calls = "lambda: os.pwrite(fd, b'x', 1 << 42), lambda: os.ftruncate(fd, (1 << 42) + 1), lambda: os.posix_fallocate(fd, 1 << 42, 1)"
        tried = f"for call in ({calls}, lambda: os.truncate(path, 1 << 62)):\n    try:\n        call()\n    except OSError as error:\n        print(error.errno)\n"
        done = self.python(tried + "print(os.fstat(fd).st_size)\n")
        self.assertEqual((done.stdout, done.stderr.count("it may not get so long")), (f"{errno.EFBIG}\n" * 4 + "0\n", 4))

    def test_a_length_of_over_four_bytes(self):
        text = (
            "length = int(sys.argv[1])\n"
            "try:\n    os.ftruncate(fd, length)\nexcept OSError as error:\n    sys.exit(error.errno)\n"
            "m = mmap.mmap(fd, length)\n"
            "for at in ((1 << 31) - 2, length - 3 - (1 << 20), length - 3): os.pwrite(fd, b'abc', at)\n"
            "m[length - 3] = ord('A')\n"
            "print(m[length - 3:], m[length - 3 - (1 << 20):length - (1 << 20)], os.pread(fd, 9, length - 4))\n"
            "print(os.fstat(fd).st_size == length, os.lseek(fd, 0, os.SEEK_END) == length)\n"
            "os.ftruncate(fd, (1 << 31) + 1)\n"
            "print(os.pread(fd, 9, (1 << 31) - 2))\n"
            "os.ftruncate(fd, 5)\n"
        )
        for length in ((1 << 32) - 1, 5 << 30):
            done = self.python("import sys\nsys.argv[1:] = ['%d']\n%s" % (length, text))
            if done.returncode == errno.EFBIG and length > 1 << 32:
                self.skipTest("the library has no files so long")
            self.assertEqual((done.stdout, done.stderr), ("b'Abc' b'abc' b'\\x00Abc'\nTrue True\nb'abc'\n", ""))
            self.assertEqual(self.apart(), bytes(5))

    def test_a_length_of_10_gib_takes_little(self):
        text = (
            "length, places = 10 << 30, (0, 5000, (5 << 30) + 77, (10 << 30) - 4)\n"
            "print(os.fstat(fd).st_size == length, [os.pread(fd, 4, at) for at in places], os.pread(fd, 1, 7 << 30))\n"
            "for at in places: os.pwrite(fd, b'%s', at)\n"
            "os.fsync(fd)\n"
            "m = mmap.mmap(fd, length)\n"
            "m[1 << 32] = 1\n"
        )
        for tracker in ("scan", "signal"):
            done = self.kefsrun("truncate", "-s", "10G", self.data, KEFS_TRACKER=tracker)
            self.assertEqual((done.returncode, done.stderr), (0, ""))
            self.assertLess(os.stat(self.image).st_blocks * 512, 20 << 20)
            for before, now in ((bytes(4), "abcd"), (b"abcd", "efgh")):
                done = self.python(text % now, KEFS_TRACKER=tracker)
                self.assertEqual((done.stdout, done.stderr), (f"True {[before] * 4} b'\\x00'\n", ""))
            self.assertLess(os.stat(self.image).st_blocks * 512, 20 << 20)
            self.python("os.ftruncate(fd, 4)")
            self.assertEqual(self.apart(), b"efgh")
            os.unlink(self.image)

    def test_a_greatest_length_stays(self):
        self.assertEqual(self.python("os.pwrite(fd, b'x' * 1000, 0)", options=("-m", "1000")).returncode, 0)
        for options in ((), ("-m", "1M")):
            self.says(self.python("os.pwrite(fd, b'x', 1000)", options=options), 1, "it may not get so long")
        self.assertEqual(self.apart(), b"x" * 1000)

    def test_a_load_that_appends_is_one_commit(self):
        load = "for k in range(10000): os.pwrite(fd, bytes([{0}]) * 4096, 4096 * (k + {1}))\n"
        done = self.python(load.format(1, 0) + "os.fsync(fd)\n", KEFS_VERBOSE="1", options=("-v",))
        self.says(done, 0, "1 commits of 10000 pages")
        changes = "for k in range({0}): os.pwrite(fd, b'y', 4096 * k)\n"
        done = self.python(changes.format(4000) + load.format(2, 10000) + "os.fsync(fd)\n", options=("-v",))
        self.says(done, 0, "1 commits of 14000 pages")
        sync = "try:\n    os.fsync(fd)\nexcept OSError as error:\n    print(error.errno, flush=True)\n"
        done = self.python(changes.format(4033).replace("y", "z") + sync + KILL)
        self.assertEqual(done.stdout, f"{errno.E2BIG}\n")
        content = self.apart()
        self.assertEqual((len(content), content[:4000 * 4096:4096]), (20000 * 4096, b"y" * 4000))
        self.assertEqual((set(content[4000 * 4096:10000 * 4096]), set(content[10000 * 4096:])), ({1}, {2}))

    def test_memory_that_came_later_is_no_childs(self):
        text = (
            "import ctypes\n"
            "os.ftruncate(fd, 4096)\n"
            "m = mmap.mmap(fd, 4096)\n"
            "at = ctypes.addressof(ctypes.c_char.from_buffer(m))\n"
            "os.ftruncate(fd, 1 << 20)\n"
            "def has(at):\n"
            "    return any(int(line.split('-')[0], 16) <= at < int(line.split()[0].split('-')[1], 16) for line in open('/proc/self/maps'))\n"
            "print(has(at), has(at + (1 << 19)), flush=True)\n"
            "child = os.fork()\n"
            "if child == 0:\n"
            "    print(has(at), has(at + (1 << 19)), flush=True)\n"
            "    os._exit(0)\n"
            "os.waitpid(child, 0)\n"
        )
        done = self.python(text)
        self.assertEqual((done.stdout, done.stderr), ("True True\nFalse False\n", ""))

    def test_cases(self):
        plain, other = os.path.join(self.folder, "plain"), os.path.join(self.folder, "other")
        names, options = ("past_the_end", "mapped_widely", "cut_meanwhile"), ((), ("-m", "2M"))
        for name, tracker, option in itertools.product(names, ("scan", "signal"), options):
            with self.subTest(case=name, tracker=tracker, option=option):
                alone = subprocess.run([CASES, name, plain, other], capture_output=True, text=True, check=True)
                done = self.kefsrun(CASES, name, self.data, other, options=option, KEFS_TRACKER=tracker)
                self.assertEqual((done.returncode, done.stdout, done.stderr), (0, alone.stdout, ""))
                with open(plain, "rb") as file:
                    self.assertEqual(self.apart(), file.read())
                for path in (self.image, plain):
                    os.unlink(path)


class Stores(Grows):
    """Stores of others, which run alone and over an image, and have to show the same."""

    def setUp(self):
        super().setUp()
        self.alone = os.path.join(self.folder, "alone")
        os.mkdir(self.alone)

    def both(self, *words, text="", commit_at="every"):
        """Runs a command on the file `data`, alone and over the image."""
        alone = subprocess.run(words, cwd=self.alone, input=text, capture_output=True, text=True)
        over = subprocess.run([KEFSRUN, "-c", commit_at, "image", "data", "--", *words], cwd=self.folder, input=text, capture_output=True, text=True)
        self.assertEqual((over.returncode, over.stdout, over.stderr), (alone.returncode, alone.stdout, alone.stderr))
        self.assertEqual(alone.returncode, 0, alone.stderr)
        return alone.stdout

    def grow(self, load, show, commit_at="every", rounds=3):
        """`load` gives the command that loads a round, and its input; `show` is the one that shows all. In each round the file grows, as it does alone."""
        length = 0
        for number in range(rounds):
            words, text = load(number)
            self.both(*words, text=text, commit_at=commit_at)
            self.assertGreater(len(self.both(*show, commit_at=commit_at)), 0)
            self.assertGreater(len(self.apart()), length)
            length = len(self.apart())
            self.assertEqual(length, os.path.getsize(os.path.join(self.alone, "data")))
        self.assertEqual(os.path.getsize(self.data), 0)
        self.assertGreater(length, 3 << 20)

    def put(self, name, text):
        """Files that both have."""
        for folder in (self.folder, self.alone):
            with open(os.path.join(folder, name), "w") as file:
                file.write(text)

    @staticmethod
    def records(number, count=4000):
        """Keys and values of a round."""
        return [(f"key{number}.{k:06}", f"value {number} {k} " * 40) for k in range(count)]

    @unittest.skipUnless(shutil.which("kchashmgr"), "Kyoto Cabinet's tools are missing")
    def test_kyoto(self):
        def load(number):
            self.put("lines", "".join(f"{key}\t{value}\n" for key, value in self.records(number)))
            return ("kchashmgr", "import", "data", "lines"), ""

        self.both("kchashmgr", "create", "data", commit_at="fsync")
        self.grow(load, ("kchashmgr", "list", "-pv", "data"), "fsync")
        self.both("kchashmgr", "check", "data", commit_at="fsync")
        self.both("kchashmgr", "clear", "data", commit_at="fsync")
        self.both("kchashmgr", "list", "-pv", "data", commit_at="fsync")

    @unittest.skipUnless(shutil.which("tchmgr"), "Tokyo Cabinet's tools are missing")
    def test_tokyo(self):
        def load(number):
            self.put("lines", "".join(f"{key}\t{value}\n" for key, value in self.records(number)))
            return ("tchmgr", "importtsv", "data", "lines"), ""

        self.both("tchmgr", "create", "data", commit_at="fsync")
        self.grow(load, ("tchmgr", "list", "-pv", "data"), "fsync")
        self.both("tchmgr", "create", "data", commit_at="fsync")  # made anew
        self.both("tchmgr", "list", "-pv", "data", commit_at="fsync")

    @unittest.skipUnless(shutil.which("gdbmtool"), "gdbm's tools are missing")
    def test_gdbm(self):
        def load(number):
            return ("gdbmtool", "data"), "".join(f'store {key} "{value}"\n' for key, value in self.records(number, 2000))

        self.grow(load, ("gdbmtool", "-r", "data", "list"), rounds=4)
        self.both("gdbmtool", "data", "reorganize")  # by a new file that gets the name
        self.both("gdbmtool", "-r", "data", "list")

    @unittest.skipUnless(shutil.which("mdb_load"), "LMDB's tools are missing")
    def test_lmdb(self):
        head = "VERSION=3\nformat=print\ntype=btree\nmapsize=68719476736\nmaxreaders=126\nHEADER=END\n"

        def load(number):
            return ("mdb_load", "-n", "data"), head + "".join(f" {key}\n {value}\n" for key, value in self.records(number)) + "DATA=END\n"

        self.grow(load, ("mdb_dump", "-n", "-p", "data"))
        self.both("mdb_stat", "-n", "-e", "-f", "data")

    @unittest.skipUnless(shutil.which("sqlite3"), "sqlite3 is missing")
    def test_sqlite(self):
        def load(number, mode="wal"):
            rows = "".join(f"insert into t values('{key}', '{value}');\n" for key, value in self.records(number))
            begin = f"pragma journal_mode={mode};\npragma mmap_size={number << 26};\ncreate table if not exists t(k text primary key, v);\nbegin;\n"
            return ("sqlite3", "data"), f"{begin}{rows}commit;\n"

        show = ("sqlite3", "data", "select k, v from t order by k; pragma integrity_check")
        for mode in ("delete", "truncate", "persist", "wal", "off"):
            with self.subTest(mode=mode):
                self.grow(lambda number, mode=mode: load(number, mode), show)
                self.both("sqlite3", "data", "delete from t where k > 'key1'; vacuum")
                self.both(*show)
                for name in (self.image, self.data, os.path.join(self.alone, "data")):
                    os.unlink(name)
                for folder in (self.folder, self.alone):
                    if os.path.exists(os.path.join(folder, "data-journal")):
                        os.unlink(os.path.join(folder, "data-journal"))


if __name__ == "__main__":
    unittest.main()
