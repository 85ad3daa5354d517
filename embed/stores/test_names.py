"""Tests of kefsrun: unlink and rename of the data file, and renames to it, also where the program is killed: python3 -m unittest test_names. It needs cc."""
import errno
import itertools
import os
import random
import shutil
import signal
import subprocess
import sys
import time
import unittest

import test_growing
import test_kefsrun
from test_kefsrun import CASES, HERE, KEFSRUN

sys.path.insert(1, os.path.join(HERE, ".."))
from images import new_image, pool_homes  # noqa: E402

KILLER = os.path.join(HERE, "out", "killer.so")
BEGIN = "import ctypes, mmap, os, signal, sys\npath = {data!r}\nother = path + '.other'\n"
SHOW = "print(os.path.exists(path), os.access(path, os.R_OK), os.listdir(os.path.dirname(path)))\n"
TRY = "def tried(call):\n    try:\n        return call()\n    except OSError as error:\n        return error.errno\n"
KILL = "os.kill(os.getpid(), signal.SIGKILL)\n"


def setUpModule():
    """Builds the library that kills, too."""
    test_kefsrun.setUpModule()
    compiler = os.environ.get("CC", "cc").split()
    subprocess.run([*compiler, "-std=gnu11", "-O2", "-Wall", "-Wextra", "-Werror", "-fPIC", "-shared", "-o", KILLER, os.path.join(HERE, "killer.c"), "-ldl"], check=True)


class Names(test_growing.Grows):
    """Names that come and go."""

    def setUp(self):
        super().setUp()
        self.folder = os.path.join(self.folder, "files")
        os.mkdir(self.folder)
        self.data, self.other = os.path.join(self.folder, "data"), os.path.join(self.folder, "data.other")

    def python(self, text, **more):
        return self.kefsrun(sys.executable, "-c", BEGIN.format(data=self.data) + TRY + text, **more)

    def runs(self, text, shown="", status=0, **more):
        """Runs a program in Python: what it shows, and its status; it is told nothing."""
        done = self.python(text, **more)
        self.assertEqual((done.returncode, done.stdout, done.stderr), (status, shown, ""))

    def filled(self, text):
        """The data file has these bytes."""
        self.runs(f"fd = os.open(path, os.O_RDWR | os.O_CREAT)\nos.ftruncate(fd, 0)\nos.write(fd, {text!r})\n")

    def put(self, path, content):
        """A file of the host."""
        with open(path, "wb") as file:
            file.write(content)

    def has(self, path, content):
        """That a file of the host has these bytes."""
        with open(path, "rb") as file:
            self.assertEqual(file.read(), content)

    def content(self):
        """What the next run sees in the data file; None where there is none."""
        done = subprocess.run([KEFSRUN, self.image, self.data, "--", "cat", self.data], capture_output=True)
        self.assertEqual(os.path.exists(self.data), done.returncode == 0)
        if done.returncode != 0:
            self.assertIn(b"No such file", done.stderr)
            return None
        self.assertEqual((done.stderr, os.path.getsize(self.data)), (b"", 0))
        return done.stdout


class Calls(Names):
    """What the calls do."""

    def test_random_calls(self):
        script = os.path.join(HERE, "names.py")
        for seed in range(16):
            plain, words = os.path.join(os.path.dirname(self.folder), f"plain.{seed}"), (str(seed), "400")
            os.mkdir(plain)
            alone = os.path.join(plain, "data")
            self.put(alone, b"")
            expected = subprocess.run([sys.executable, script, alone, *words], capture_output=True, text=True, check=True)
            done = self.kefsrun(sys.executable, script, self.data, *words, KEFS_TRACKER="signal" if seed % 2 else "scan")
            self.assertEqual((done.returncode, done.stderr, done.stdout), (0, "", expected.stdout))
            left = None
            if os.path.exists(alone):
                with open(alone, "rb") as file:
                    left = file.read()
            self.assertEqual(self.content(), left)
            self.assertEqual(sorted(os.listdir(self.folder)), sorted(os.listdir(plain)))
            for name in os.listdir(self.folder):
                os.unlink(os.path.join(self.folder, name))
            os.unlink(self.image)

    def test_a_file_that_is_gone_is_gone(self):
        self.filled(b"bytes")
        calls = "(os.stat, os.lstat, os.unlink, os.remove, lambda path: os.open(path, os.O_RDWR), lambda path: os.truncate(path, 1))"
        gone = SHOW + f"print([tried(lambda: call(path)) for call in {calls}])\n"
        shown = f"False False []\n{[errno.ENOENT] * 6}\n"
        self.runs("os.unlink(path)\n" + gone, shown)
        self.assertFalse(os.path.exists(self.data))
        self.runs(gone, shown)
        self.assertIsNone(self.content())
        self.runs("fd = os.open(path, os.O_RDWR | os.O_CREAT | os.O_EXCL)\nprint(os.fstat(fd).st_size, os.read(fd, 9))\nos.write(fd, b'new')\n", "0 b''\n")
        self.assertEqual(self.content(), b"new")

    def test_forms_of_unlink(self):
        for call in ("os.unlink(path)", "os.unlink('data', dir_fd=os.open(os.path.dirname(path), os.O_RDONLY))", "os.chdir(os.path.dirname(path)); os.remove('./data')",
                     "ctypes.CDLL(None).remove(path.encode())", "os.open(path, os.O_RDWR); os.unlink(path)"):
            with self.subTest(call=call):
                self.filled(b"bytes")
                self.runs(call + "\n")
                self.assertIsNone(self.content())

    def test_what_is_open_goes_on(self):
        self.filled(b"old" * 5000)
        self.put(self.other, b"new")
        begin = "fd = os.open(path, os.O_RDWR)\nm = mmap.mmap(fd, 15000)\nm[:3] = b'OLD'\nos.lseek(fd, 3, os.SEEK_SET)\n"
        for change in ("os.unlink(path)\n", "os.rename(other, path)\n"):
            text = begin + change + (
                "print(os.read(fd, 3), os.fstat(fd).st_size, os.fstat(fd).st_nlink, m[:6], m[-3:])\n"
                "m[:1] = b'x'\nos.pwrite(fd, b'y', 1)\nprint(os.pread(fd, 3, 0), m[:3])\nos.fsync(fd)\n"
            )
            self.runs(text, "b'old' 15000 0 b'OLDold' b'old'\nb'xyD' b'xyD'\n")
            self.assertEqual(self.content(), None if "unlink" in change else b"new")
            self.filled(b"old" * 5000)
        self.assertEqual(os.listdir(self.folder), ["data"])
        self.runs(begin + "os.rename(path, other)\nprint(os.path.samestat(os.fstat(fd), os.stat(other)))\nm[:1] = b'x'\nos.write(fd, b'y')\n", "True\n")
        self.has(self.other, b"xLDyld" + b"old" * 4998)
        self.assertIsNone(self.content())

    def test_a_descriptor_of_a_file_that_gets_the_name(self):
        self.filled(b"old")
        text = (
            "fd = os.open(other, os.O_RDWR | os.O_CREAT)\nos.write(fd, b'first, ')\nos.rename(other, path)\nos.write(fd, b'second')\n"
            "print(os.pread(fd, 20, 0), os.stat(path).st_size, os.path.exists(other), flush=True)\nos.fsync(fd)\nos.write(fd, b', lost')\n" + KILL
        )
        self.runs(text, "b'first, second' 13 False\n", -signal.SIGKILL)
        self.assertEqual(self.content(), b"first, second")

    def test_renames(self):
        self.filled(b"old")
        self.put(self.other, b"new" * 3000)
        self.runs("os.replace(other, path)\nprint(os.stat(path).st_size, os.path.exists(other))\n", "9000 False\n")
        self.assertEqual(self.content(), b"new" * 3000)
        self.runs("os.rename(path, other)\n" + SHOW, "False False ['data.other']\n")
        self.has(self.other, b"new" * 3000)
        self.assertIsNone(self.content())
        self.runs("os.rename(other, path)\nos.rename(path, path)\n" + SHOW, "True True ['data']\n")
        self.assertEqual(self.content(), b"new" * 3000)
        self.put(self.other, b"")
        self.runs("os.rename(other, path)\n")
        self.assertEqual(self.content(), b"")

    def test_paths(self):
        self.filled(b"old")
        os.mkdir(os.path.join(self.folder, "far"))
        os.symlink(self.folder, os.path.join(self.folder, "far", "back"))
        text = (
            "os.chdir(os.path.dirname(path))\n"
            "far, near = os.open('far', os.O_RDONLY), os.open('.', os.O_RDONLY)\n"
            "def shown():\n    print(os.path.exists(path) and os.stat(path).st_size, sorted(os.listdir(os.path.dirname(path) + '/far')))\n"
            "os.rename('data', 'moved', dst_dir_fd=far)\nshown()\n"
            "os.rename('far/moved', 'far/back/data')\nshown()\n"
            "os.rename('data', 'moved', src_dir_fd=near, dst_dir_fd=far)\nshown()\n"
            "os.rename('moved', 'back/./data', src_dir_fd=far, dst_dir_fd=far)\nshown()\n"
            "os.chdir('far')\nos.rename('../data', 'data')\nshown()\n"
            "os.rename('data', '../other')\nos.chdir('..')\nos.rename('./other', './/data')\nos.unlink('far/back/data')\nshown()\n"
            "os.symlink(path, 'far/soft')\nfd = os.open('far/soft', os.O_RDWR | os.O_CREAT)\nos.write(fd, b'by a link')\nshown()\n"
            "with open('far/soft', 'w') as file: file.write('again')\nos.unlink('far/soft')\nshown()\n"
        )
        there, moved = "3 ['back']\n", "False ['back', 'moved']\n"
        self.runs(text, moved + there + moved + there + "False ['back', 'data']\nFalse ['back']\n9 ['back', 'soft']\n5 ['back']\n")
        self.assertEqual(self.content(), b"again")
        self.runs("os.unlink(path)\n")
        self.assertEqual(self.kefsrun(CASES, "written_stream", os.path.join(self.folder, "far", "back", "data"), self.other).returncode, -signal.SIGKILL)
        self.assertEqual(self.content(), b"one, three")

    def test_flags_of_renameat2(self):
        call = (
            "def rename(old, new, flags):\n    libc = ctypes.CDLL(None, use_errno=True)\n"
            "    return libc.renameat2(-100, old.encode(), -100, new.encode(), flags) and ctypes.get_errno()\n"
        )
        self.filled(b"old")
        self.put(self.other, b"new")
        self.runs(call + "print([rename(other, path, 1), rename(path, other, 1)])\n", f"{[errno.EEXIST] * 2}\n")
        for flags in (2, 4):
            done = self.python(call + f"print([rename(other, path, {flags}), rename(path, other, {flags})])\n")
            self.assertEqual((done.stdout, done.stderr.count("an exchange of names")), (f"{[errno.EINVAL] * 2}\n", 2))
        self.assertEqual(self.content(), b"old")
        self.runs(call + "os.unlink(path)\nprint(rename(other, path, 1), rename(path, other, 1), rename(other, path, 1))\n", "0 0 0\n")
        self.assertEqual(self.content(), b"new")

    def test_other_names_and_folders(self):
        self.filled(b"bytes")
        text = (
            "folder = path + '.d'\nos.mkdir(folder)\nprint(tried(lambda: os.rename(folder, path)), tried(lambda: os.rename(path, folder)),"
            " tried(lambda: os.rmdir(path)), tried(lambda: os.rename(path + '.none', path)))\n"
            "os.symlink(path, other)\nprint(os.stat(other).st_size)\nos.rename(other, other + '2')\nos.unlink(other + '2')\nos.rmdir(folder)\n"
            "print(tried(lambda: os.rename(path, '/dev/shm/data')), os.stat(path).st_size)\n"
        )
        far = errno.EXDEV if os.stat("/dev/shm").st_dev != os.stat(self.folder).st_dev else None
        if far is not None:
            self.runs(text, f"{errno.ENOTDIR} {errno.EISDIR} {errno.ENOTDIR} {errno.ENOENT}\n5\n{far} 5\n")
        self.assertEqual((self.content(), os.listdir(self.folder)), (b"bytes", ["data"]))

    def test_what_is_refused(self):
        self.filled(b"bytes")
        self.put(self.other, b"others")
        os.link(self.other, f"{self.other}2")
        os.symlink("nothing", f"{self.other}3")
        gone = "os.unlink(path)\n"
        for call, number, words in (
            ("os.link(path, path + '.2')", errno.EPERM, "a second name"),
            ("os.rename(other, path)", errno.EPERM, "another name too"),
            ("os.rename(other + '3', path)", errno.EPERM, "no file with bytes"),
            ("os.link(other, path)", errno.EEXIST, ""),
            ("os.symlink(other, path)", errno.EEXIST, ""),
            (gone + "print(tried(lambda: os.link(other, path)))", errno.EPERM, "a link to another file"),
            (gone + "print(tried(lambda: os.symlink(other, path)))", errno.EPERM, "a link to another file"),
        ):
            with self.subTest(call=call):
                before = sorted(os.listdir(self.folder))
                done = self.python(call if call.startswith(gone) else f"print(tried(lambda: {call}))\n")
                self.assertEqual(done.stdout, f"{number}\n", done.stderr)
                self.assertIn(words, done.stderr)
                self.assertEqual(sorted(os.listdir(self.folder)), [name for name in before if name != "data" or gone not in call])
                if gone in call:
                    self.filled(b"bytes")
                self.assertEqual(self.content(), b"bytes")
        os.link(self.data, f"{self.data}.host")
        done = self.python("print(tried(lambda: os.unlink(path)), tried(lambda: os.rename(path, other)))\n")
        self.assertEqual(done.stdout, f"{errno.EPERM} {errno.EPERM}\n", done.stderr)
        self.assertIn("it has another name too", done.stderr)
        self.assertEqual(self.content(), b"bytes")

    def test_images_of_older_kefsruns(self):
        for layout in (4, 2):
            with open(self.image, "wb") as image:
                image.write(new_image([1 << 16, 4096], layout=layout))
            self.put(self.other, b"others")
            done = self.python("print(tried(lambda: os.unlink(path)), tried(lambda: os.rename(path, other)), tried(lambda: os.rename(other, path)))\n")
            self.assertEqual(done.stdout, f"{errno.EPERM} {errno.EPERM} {errno.EPERM}\n")
            self.assertEqual(done.stderr.count("that an older kefsrun made"), 3)

    def test_images_with_a_limit_of_four_bytes(self):
        for most, length in ((1000, 1000), (0xFFFFFFFF, 5000)):
            image = bytearray(new_image([0, 4], layout=4))
            home = 512 * pool_homes(image) + 4096 * 4
            image[home:home + 4] = most.to_bytes(4, "little")
            self.put(self.image, image)
            self.put(self.other, b"x" * length)
            self.runs("os.rename(other, path)\nos.rename(path, other)\nos.rename(other, path)\n")
            self.assertEqual(self.content(), b"x" * length)
        self.put(self.image, bytes(image[:home]) + (1000).to_bytes(4, "little") + bytes(image[home + 4:]))
        self.put(self.other, b"x" * 1001)
        done = self.python("print(tried(lambda: os.rename(other, path)))\n")
        self.assertEqual(done.stdout, f"{errno.EFBIG}\n")
        self.has(self.other, b"x" * 1001)

    def test_a_file_system_that_is_full(self):
        self.filled(b"old" * 5000)
        self.put(self.other, b"new" * 5000000)
        limit = f"import resource\nsignal.signal(signal.SIGXFSZ, signal.SIG_IGN)\nresource.setrlimit(resource.RLIMIT_FSIZE, ({18 << 20}, {18 << 20}))\n"
        for begin in ("", "fd = os.open(path, os.O_RDWR)\nos.pwrite(fd, b'OLD', 0)\n"):
            done = self.python(limit + begin + "print(tried(lambda: os.rename(other, path)))\n" + (begin and "print(os.pread(fd, 6, 0))\n"))
            self.assertEqual(done.stdout, f"{errno.EFBIG}\n" + (begin and "b'OLDold'\n"), done.stderr)
            self.has(self.other, b"new" * 5000000)
        self.assertEqual(self.content(), b"OLD" + b"old" * 4999)
        self.assertEqual(sorted(os.listdir(self.folder)), ["data", "data.other"])
        self.runs("os.rename(other, path)\n")
        self.assertEqual(self.content(), b"new" * 5000000)

    def test_any_number_of_pages_is_one_commit(self):
        self.filled(b"old")
        self.runs("fd = os.open(path, os.O_RDWR)\nfor k in range(64): os.pwrite(fd, bytes([k]) * (1 << 20), k << 20)\n")
        self.put(self.other, b"".join(bytes([k + 64]) * (1 << 20) for k in range(64)))
        self.runs("fd = os.open(path, os.O_RDWR)\nos.rename(other, path)\nprint([os.pread(fd, 1, k << 20)[0] for k in (0, 63)], flush=True)\n" + KILL, "[0, 63]\n", -signal.SIGKILL)
        content = self.content()
        self.assertEqual((len(content), content[::1 << 20]), (64 << 20, bytes(range(64, 128))))

    def test_times_and_rights(self):
        self.filled(b"bytes")
        self.put(self.other, b"others")
        os.chmod(self.other, 0o640)
        os.utime(self.other, (1000000000, 1000000000))
        self.runs("os.rename(other, path)\nfacts = os.stat(path)\nprint(oct(facts.st_mode), facts.st_mtime)\n", "0o100640 1000000000.0\n")
        self.runs("fd = os.open(path, os.O_RDWR)\nos.rename(path, other)\nfacts = os.fstat(fd)\nprint(oct(facts.st_mode), facts.st_mtime)\n", "0o100640 1000000000.0\n")

    def test_a_mapping_that_another_thread_may_store_to(self):
        self.put(self.other, b"others")
        for change in ("os.unlink(path)", "os.rename(other, path)", "os.rename(path, other)"):
            self.filled(b"bytes")
            text = (
                "import threading\nfd = os.open(path, os.O_RDWR)\nm = mmap.mmap(fd, 5)\nend = threading.Event()\nthread = threading.Thread(target=end.wait)\n"
                f"thread.start()\nprint(tried(lambda: {change}), m[:])\n"
            )
            done = self.python(text + "end.set()\nthread.join()\nm[:1] = b'B'\n")
            self.assertEqual(done.stdout, f"{errno.EBUSY} b'bytes'\n")
            self.assertIn("another thread may store to it", done.stderr)
            self.assertEqual((self.content(), sorted(os.listdir(self.folder))), (b"Bytes", ["data", "data.other"]))

    def test_threads_meanwhile(self):
        done = self.kefsrun(CASES, "renamed_meanwhile", self.data, self.other)
        self.assertEqual((done.returncode, done.stdout, done.stderr), (0, "whole\n", ""))

    def test_streams_and_mappings_that_are_not_answered(self):
        for name in ("renamed_stream", "renamed_mapping"):
            with self.subTest(case=name):
                self.filled(b"old")
                done = self.kefsrun(CASES, name, self.data, self.other)
                self.assertEqual((done.returncode, done.stdout, done.stderr), (0, "begin, end\n", ""))
                self.assertEqual(self.content(), b"begin, end")
                self.filled(b"old")
                done = self.kefsrun(CASES, name, self.data, self.other, CASE_KILLED="1")
                self.assertEqual((done.returncode, done.stderr), (-signal.SIGKILL, ""))
                done = subprocess.run([KEFSRUN, self.image, self.data, "--", "cat", self.data], capture_output=True, text=True)
                self.assertEqual((done.returncode, done.stdout), (0, "begin"))
                self.assertIn("data.left now", done.stderr)
                self.has(f"{self.data}.left", b"begin, end")
                os.unlink(f"{self.data}.left")
                self.assertEqual((self.content(), os.listdir(self.folder)), (b"begin", ["data"]))
        done = self.kefsrun(CASES, "renamed_open_stream", self.data, self.other)
        self.assertEqual((done.returncode, done.stderr, self.content()), (0, "", b"begin, end"))


class Programs(Names):
    """Other people's programs."""

    def shell(self, text, shown="", shell="sh"):
        """Runs a script in the folder, where nothing fails."""
        done = subprocess.run([KEFSRUN, self.image, self.data, "--", shell, "-euc", text], cwd=self.folder, capture_output=True, text=True)
        self.assertEqual((done.returncode, done.stdout, done.stderr), (0, shown, ""))

    def test_files_that_are_written_anew(self):
        self.filled(b"one\ntwo\n")
        for text in (
            "sed -i s/one/1/ data; cat data",
            "sed s/two/2/ data >new; mv new data; cat data",
            "printf 'three\n' >new; cp --remove-destination new data; cat data; rm new",
            "printf 'four\n' >new; install -m 644 new data; cat data; rm new",
            "mv data old; cat old; mv -n old data; cat data",
            "cp data old; rm -f data; ! test -e data; mv old data; cat data",
        ):
            alone = subprocess.run(["sh", "-euc", f"cat >data; {text}"], cwd=self.new_folder(), input=self.content().decode(), capture_output=True, text=True, check=True)
            self.shell(text, alone.stdout)
            self.assertEqual(os.listdir(self.folder), ["data"])

    def test_a_number_that_the_system_gives_again(self):
        self.filled(b"old")
        files = "for k in 1 2 3 4 5 6; do printf $k >file$k; done; cat file? data; rm file?; "
        self.shell("printf new >new; mv new data; " + files + "cp data new; rm data; " + files.replace(" data", "") + "mv new data; cat data", "123456new123456new")

    def new_folder(self):
        """A folder of its own."""
        self.folders = getattr(self, "folders", 0) + 1
        path = os.path.join(os.path.dirname(self.folder), f"alone.{self.folders}")
        os.mkdir(path)
        return path

    @unittest.skipUnless(shutil.which("perl"), "perl is missing")
    def test_perl(self):
        self.filled(b"one\ntwo\n")
        self.shell("perl -pi -e 's/one/1/' data; cat data", "1\ntwo\n")
        self.shell("perl -i.before -pe 's/two/2/' data 2>line; grep -c 'a second name' line; rm line; cat data data.before", "1\n1\n2\n1\ntwo\n")  # it would link both
        self.shell("perl -e 'open F, q(data); unlink q(data); open G, q(>data); print G uc while <F>; close G'; cat data", "1\n2\n")

    @unittest.skipUnless(shutil.which("vim"), "vim is missing")
    def test_vim(self):
        self.filled(b"one\ntwo\n")
        for options, before in (("", b"one\n"), ("-c 'set backup backupcopy=no'", b"1\n"), ("-c 'set backup backupcopy=yes'", b"1\n")):
            self.shell(f"vim -u NONE -es {options} -c '%s/{before.decode().strip()}/1/' -c wq data")
            self.assertEqual(self.content(), b"1\ntwo\n")

    @unittest.skipUnless(shutil.which("sqlite3"), "sqlite3 is missing")
    def test_sqlite(self):
        rows = "with recursive c(k) as (select 1 union all select k + 1 from c where k < 2000) insert into t select k, hex(randomblob(300)) from c;"
        for way in ("vacuum into 'new'", ".backup new"):
            self.shell(f'sqlite3 data "create table t(k integer primary key, v); {rows}"; sqlite3 data "delete from t where k % 2"; sqlite3 data "{way}"; mv new data')
            self.shell('sqlite3 data "select count(*), sum(length(v)) from t; pragma integrity_check"', "1000|600000\nok\n")
            self.shell("rm data")

    @unittest.skipUnless(shutil.which("tchmgr"), "Tokyo Cabinet's tools are missing")
    def test_tokyo(self):
        load = "".join(f"tchmgr put data key{k} value{k}; " for k in range(20)) + "tchmgr out data key7; "
        self.shell("tchmgr create data; " + load + "tchmgr optimize data")
        self.shell("tchmgr list data | sort | head -3; tchmgr optimize -tl data 3; tchmgr list data | wc -l", "key0\nkey1\nkey10\n19\n")
        self.assertEqual(os.listdir(self.folder), ["data"])

    @unittest.skipUnless(shutil.which("kchashmgr"), "Kyoto Cabinet's tools are missing")
    def test_kyoto(self):
        self.shell("kchashmgr create data; kchashmgr set data key1 value1; kchashmgr set data key2 value2")
        self.runs("fd = os.open(path, os.O_RDWR)\nos.pwrite(fd, bytes([os.pread(fd, 1, 24)[0] | 1]), 24)\n")  # as a program leaves it that is killed
        self.shell("kchashmgr set data key3 value3 2>line; grep -c 'reorganizing the database' line; rm line; kchashmgr list -pv data; kchashmgr check data >check; rm check",
                   "1\nkey1\tvalue1\nkey2\tvalue2\nkey3\tvalue3\n")
        self.assertEqual(os.listdir(self.folder), ["data"])

    @unittest.skipUnless(shutil.which("gdbmtool"), "gdbm's tools are missing")
    def test_gdbm(self):
        for option in ("", "-m"):
            load = "".join(f"store key{k} value{k}\n" for k in range(50))
            again = f"printf 'reorganize\nstore more bytes\nreorganize\n' | gdbmtool {option} data"
            self.shell(f"printf '{load}' | gdbmtool {option} data; {again}", "Reorganization succeeded.\n" * 2)
            self.shell(f"gdbmtool {option} data count; gdbmtool {option} data fetch more; rm data", "There are 51 items in the database.\nbytes\n")
            self.assertEqual(os.listdir(self.folder), [])

    def test_one_program_at_a_time(self):
        self.filled(b"bytes")
        self.put(self.other, b"others")
        text = (
            "import subprocess\nfd = os.open(path, os.O_RDWR)\nfor words in (['rm', path], ['mv', other, path], ['mv', path, other]):\n"
            "    print(subprocess.run(words, stderr=subprocess.PIPE).stderr.count(b'busy'))\n"
        )
        self.runs(text, "1\n1\n1\n")
        self.assertEqual((self.content(), sorted(os.listdir(self.folder))), (b"bytes", ["data", "data.other"]))

    def test_what_is_lent_is_not_cut_off(self):
        self.put(self.other, b"begin")
        text = (
            "import subprocess\nfd = os.open(other, os.O_RDWR)\nmap_file = ctypes.CDLL(None).mmap\nmap_file.restype = ctypes.c_void_p\n"
            "map_file.argtypes = [ctypes.c_void_p, ctypes.c_size_t, ctypes.c_int, ctypes.c_int, ctypes.c_int, ctypes.c_long]\n"
            "at = map_file(None, 4096, 3, 1, fd, 0)\nos.rename(other, path)\nctypes.memmove(at, b'BEGIN', 5)\n"
            "print(subprocess.run(['sh', '-c', ': >\"$0\"', path], stderr=subprocess.PIPE).stderr.count(b'busy'), os.pread(fd, 9, 0))\n"
        )
        self.runs(text, "1 b'BEGIN'\n")
        self.assertEqual(self.content(), b"BEGIN")
        self.put(self.other, b"begin")
        self.runs(text.replace("print(", "os.close(os.open(path, os.O_WRONLY | os.O_TRUNC))\nprint(os.fstat(fd).st_size)\nprint("), "0\n1 b''\n")
        self.assertEqual(self.content(), b"")

    def test_processes_at_once(self):
        self.filled(b"x" * 1000)
        text = (
            "import random, subprocess, time\nend, kids = time.time() + 4, []\n"
            "def whole(content):\n    assert content in [bytes([k]) * 1000 * (k - 96) for k in range(97, 123)], (len(content), set(content))\n"
            "def change(number):\n"
            "    rng, name = random.Random(number), f'{path}.{number}'\n"
            "    letter = rng.choice(b'abcdefgh')\n"
            "    with open(name, 'wb') as file: file.write(bytes([letter]) * 1000 * (letter - 96))\n"
            "    while tried(lambda: os.rename(name, path)) == errno.EBUSY: time.sleep(rng.random() / 100)\n"
            "    if rng.random() < 0.2 and tried(lambda: os.rename(path, name)) is None: whole(open(name, 'rb').read()); os.unlink(name)\n"
            "    if rng.random() < 0.1: tried(lambda: os.unlink(path))\n"
            "def look():\n"
            "    done = subprocess.run(['cat', path], capture_output=True)\n"
            "    if done.returncode == 0: whole(done.stdout)\n"
            "    else: assert b'No such file' in done.stderr or b'busy' in done.stderr, done.stderr\n"
            "for k in range(4):\n"
            "    kids.append(os.fork())\n"
            "    while kids[k] == 0 and time.time() < end: change(time.time() + k) if k < 2 else look()\n"
            "    if kids[k] == 0: os._exit(0)\n"
            "print([os.waitpid(kid, 0)[1] for kid in kids])\n"
        )
        self.put(self.other, b"x" * 24000)
        done = self.python("import errno\nos.rename(other, path)\n" + text)
        self.assertEqual((done.returncode, done.stdout), (0, "[0, 0, 0, 0]\n"), done.stderr)
        self.assertLessEqual({line.split(": ")[-1] for line in done.stderr.splitlines()}, {"another process or handle has the image open"})

    def test_a_name_alone_holds_nothing(self):
        self.filled(b"bytes")
        text = (
            "import subprocess\nos.rename(path, other)\nos.rename(other, path)\nos.unlink(path)\n"
            "subprocess.run(['sh', '-c', 'printf again >\"$0\"', path], check=True)\nprint(os.stat(path).st_size)\n"
        )
        self.runs(text, "5\n")
        self.assertEqual(self.content(), b"again")


class Kills(Names):
    """A program that is killed leaves the data file as before or after, whole, and any other name as before or after. Before each of its calls that change something, or at any
    moment. The stops are counted, and told at the end."""

    stops = 0

    @classmethod
    def tearDownClass(cls):
        print(f"test_names: {cls.stops} programs killed, each data file whole", file=sys.stderr)

    def setUp(self):
        super().setUp()
        self.kept = os.path.join(os.path.dirname(self.folder), "kept")

    def keep(self):
        """The state in which each try begins."""
        os.mkdir(self.kept)
        shutil.copy(self.image, os.path.join(self.kept, "image"))
        shutil.copytree(self.folder, os.path.join(self.kept, "files"))

    def begin_again(self):
        """That state."""
        shutil.rmtree(self.folder)
        shutil.copytree(os.path.join(self.kept, "files"), self.folder)
        shutil.copy(os.path.join(self.kept, "image"), self.image)

    def killed(self, at, *words, then=("true",), **environment):
        """Runs a program that is killed before its call of this number, and then others in the same run: whether it was."""
        self.begin_again()
        text = (
            f"import os, subprocess\nenvironment = os.environ | {{'KILL_AT': '{at}'}}\n"
            f"done = subprocess.run({list(words)!r}, stdout=subprocess.DEVNULL, stderr=subprocess.DEVNULL, env=environment)\n"
            f"print(done.returncode, flush=True)\nsubprocess.run({list(then)!r})\n"
        )
        done = self.kefsrun(sys.executable, "-c", text, LD_PRELOAD=KILLER, **environment)
        self.assertEqual(done.returncode, 0, done.stderr)
        status = int(done.stdout.split("\n")[0])
        self.assertIn(status, (0, -signal.SIGKILL), done.stderr)
        self.after = done.stdout.split("\n", 1)[1]
        type(self).stops += status != 0
        return status != 0

    def each_call(self, allowed, *words, **environment):
        """Kills a program before each of its calls. `allowed` gives the states that may be found: the data file and the other one; the last of them is that after the whole call."""
        is_killed = True
        for at in itertools.count(1):
            for in_run in (False, True):
                with self.subTest(at=at, in_run=in_run):
                    show = ("sh", "-c", 'cat "$0" 2>/dev/null || echo NONE', self.data) if in_run else ("true",)
                    is_killed = self.killed(at, *words, then=show, **environment)
                    seen = self.content()
                    state = (seen, self.host(self.other))
                    self.assertIn(state, allowed if is_killed else allowed[-1:])
                    if in_run:
                        self.assertEqual(self.after, "NONE\n" if seen is None else seen.decode())
                    self.assertLessEqual({name.split(".kefsrun-")[0] for name in os.listdir(self.folder)}, {"data", "data.other"})
            if not is_killed:
                self.assertGreater(at, 3)
                return

    @staticmethod
    def host(path):
        """The bytes of a file of the host; None where it is not there."""
        if not os.path.exists(path):
            return None
        with open(path, "rb") as file:
            return file.read()

    def test_mv_to_it(self):
        old, new = b"old" * 7000, b"new" * 9000
        for tracker, is_there in itertools.product(("scan", "signal"), (True, False)):
            with self.subTest(tracker=tracker, is_there=is_there):
                self.filled(old)
                if not is_there:
                    self.runs("os.unlink(path)\n")
                self.put(self.other, new)
                self.keep()
                before = old if is_there else None
                self.each_call([(before, new), (new, new), (new, None)], "mv", self.other, self.data, KEFS_TRACKER=tracker)
                shutil.rmtree(self.kept)
                os.unlink(self.image)

    def test_mv_from_it(self):
        old, gone = b"old" * 7000, b"replaced"
        self.filled(old)
        self.put(self.other, gone)
        self.keep()
        self.each_call([(old, gone), (old, old), (None, old)], "mv", self.data, self.other)

    def test_rm(self):
        self.filled(b"old" * 7000)
        self.keep()
        self.each_call([(b"old" * 7000, None), (None, None)], "rm", self.data)

    def test_programs_that_have_it_open(self):
        old, new = b"old" * 7000, b"new" * 9000
        self.filled(old)
        self.put(self.other, new)
        self.keep()
        begin = f"import mmap, os\npath = {self.data!r}\nother = path + '.other'\nfd = os.open(path, os.O_RDWR)\nm = mmap.mmap(fd, 21000)\n"
        for change, allowed in (
            ("os.rename(other, path)", [(old, new), (new, new), (new, None)]),
            ("os.unlink(path)", [(old, new), (None, new)]),
            ("os.rename(path, other)", [(old, new), (old, old), (None, old)]),
        ):
            with self.subTest(change=change):
                self.each_call(allowed, sys.executable, "-c", f"{begin}{change}\nassert m[-3:] == b'old' == os.pread(fd, 3, 0)\n")

    def test_a_file_that_is_renamed_while_it_is_used(self):
        old, new = b"old" * 7000, b"begin, end"
        self.filled(old)
        self.keep()
        for name in ("renamed_stream", "renamed_mapping"):
            for at in itertools.count(1):
                is_killed = self.killed(at, CASES, name, self.data, self.other)
                done = subprocess.run([KEFSRUN, self.image, self.data, "--", "cat", self.data], capture_output=True)
                self.assertEqual(done.returncode, 0, done.stderr)
                self.assertIn(done.stdout, (old, b"begin", new) if is_killed else (new,))
                if not is_killed:
                    break

    def compacted(self, make, compact, show, shown):
        """Kills a store as it compacts its file, at twenty of its calls, most of them late ones."""
        subprocess.run([KEFSRUN, self.image, self.data, "--", "sh", "-ec", make], cwd=self.folder, check=True, capture_output=True)
        self.keep()
        rng, calls = random.Random(7), 1
        while self.killed(calls, *compact):
            calls *= 2
        below = calls // 2
        while calls - below > 1:  # the number of calls that it makes
            middle = (below + calls) // 2
            below, calls = (middle, calls) if self.killed(middle, *compact) else (below, middle)
        for at in [rng.randrange(1, calls) for _ in range(6)] + [max(1, calls - k) for k in range(2, 30, 2)]:
            self.killed(at, *compact)
            done = subprocess.run([KEFSRUN, self.image, self.data, "--", "sh", "-ec", show], cwd=self.folder, capture_output=True, text=True)
            self.assertEqual((done.returncode, done.stdout), (0, shown), done.stderr)

    @unittest.skipUnless(shutil.which("tchmgr"), "Tokyo Cabinet's tools are missing")
    def test_tokyo(self):
        make = "tchmgr create data 10; " + "".join(f"tchmgr put data key{k} value{k}; " for k in range(9))
        show = "test -e data || mv data.tmp.* data; tchmgr list -pv data | sort"
        self.compacted(make, ("tchmgr", "optimize", self.data, "10"), show, "".join(f"key{k}\tvalue{k}\n" for k in range(9)))

    @unittest.skipUnless(shutil.which("gdbmtool"), "gdbm's tools are missing")
    def test_gdbm(self):
        make = "printf '" + "".join(f"store key{k} value{k}\\n" for k in range(9)) + "' | gdbmtool data"
        for option in ("-m", "-s"):
            self.compacted(make, ("gdbmtool", option, self.data, "reorganize"), "gdbmtool -r data list | sort", "".join(f"key{k} value{k}\n" for k in range(9)))
            shutil.rmtree(self.kept)
            os.unlink(self.image)
            os.unlink(self.data)

    def rewriting(self, ways):
        """A program that writes the file anew without end, and prints each number that is durable."""
        return (
            f"import os, sys\npath = {self.data!r}\nother = path + '.other'\n"
            "def write(number):\n    fd = os.open(other, os.O_RDWR | os.O_CREAT | os.O_TRUNC)\n    os.write(fd, b'%08d' % number * (1 + number * 7919 % 3000))\n"
            "    os.fsync(fd)\n    os.close(fd)\n    os.rename(other, path)\n    print(number, flush=True)\n"
            f"kept = [os.open(path, os.O_RDWR)] if {ways!r} == 'open' else []\n"
            "for number in range(int(sys.argv[1]), 1 << 30):\n    write(number)\n"
            f"    if {ways!r} == 'open': os.close(kept.pop()); kept.append(os.open(path, os.O_RDWR))\n"
        )

    def rewritten(self, way, first, seconds):
        """Lets it run for a while, and kills it: the number that the file has then."""
        words = [KEFSRUN, self.image, self.data, "--", sys.executable, "-c", self.rewriting(way), str(first)]
        with subprocess.Popen(words, stdout=subprocess.PIPE, stderr=subprocess.PIPE) as run:
            run.stdout.readline()
            time.sleep(seconds)
            run.kill()
            told, errors = run.communicate()
        self.assertEqual(errors, b"")
        last = max([first, *map(int, told.split(b"\n")[:-1])])
        content = self.content()
        number = int(content[:8])
        self.assertIn(number, (last, last + 1))
        self.assertEqual(content, b"%08d" % number * (1 + number * 7919 % 3000))
        type(self).stops += 1
        return number

    def test_at_any_moment(self):
        rng = random.Random(5)
        for way in ("closed", "open"):
            self.filled(b"%08d" % 0)
            number = 0
            for _ in range(40):
                number = self.rewritten(way, number + 1, rng.random() / 10)
            for name in os.listdir(self.folder):
                os.unlink(os.path.join(self.folder, name))
            os.unlink(self.image)


if __name__ == "__main__":
    unittest.main()
