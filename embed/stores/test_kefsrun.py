"""Tests of kefsrun and kefsrun.so, as out/ has them: python3 -m unittest test_kefsrun. It needs cc."""
import errno
import itertools
import os
import re
import shutil
import signal
import subprocess
import sys
import tempfile
import unittest

HERE = os.path.dirname(os.path.abspath(__file__))
KEFSRUN, CASES = os.path.join(HERE, "out", "kefsrun"), os.path.join(HERE, "out", "cases")
MOST = 1 << 16


def setUpModule():
    """Builds the program of calls that Python does not make."""
    compiler = os.environ.get("CC", "cc").split()
    subprocess.run([*compiler, "-std=gnu11", "-O2", "-Wall", "-Wextra", "-Werror", "-o", CASES, os.path.join(HERE, "cases.c"), "-pthread"], check=True)


class Runs(unittest.TestCase):
    """Each test has a folder, an image and a data file of its own."""

    def setUp(self):
        folder = tempfile.TemporaryDirectory()
        self.addCleanup(folder.cleanup)
        self.folder = folder.name
        self.image, self.data = os.path.join(self.folder, "image"), os.path.join(self.folder, "data")

    def kefsrun(self, *words, options=("-m", "64K"), **environment):
        """Runs a command on the image."""
        command = [KEFSRUN, *options, self.image, self.data, "--", *words]
        return subprocess.run(command, capture_output=True, text=True, timeout=60, env=os.environ | environment)

    def python(self, text, **more):
        """Runs a program in Python on the image, which has the data file open as `fd`, and has to succeed unless it says so."""
        begin = f"import os, mmap, signal\npath = {self.data!r}\nfd = os.open(path, os.O_RDWR)\n"
        return self.kefsrun(sys.executable, "-c", begin + text, **more)

    def content(self):
        """What is durable in the data file."""
        done = self.python("os.write(1, os.pread(fd, 1 << 16, 0))")
        self.assertEqual((done.returncode, done.stderr), (0, ""))
        return done.stdout

    def says(self, done, status, text):
        """That a program ended with a status and that this is in its standard error."""
        self.assertEqual(done.returncode, status, done.stderr)
        self.assertIn(text, done.stderr)


class Kefsrun(Runs):
    """kefsrun's words, and calls that Python makes."""

    def test_words(self):
        for words in ((), ("a", "b"), ("a", "b", "true"), ("a", "b", "--"), ("-c", "never", "a", "b", "--", "true"), ("-q", "a", "b", "--", "true")):
            self.says(subprocess.run([KEFSRUN, *words], capture_output=True, text=True), 2, "usage: kefsrun")
        for length in ("0", "8T", "5X", "", "-1", "1KK"):
            self.says(self.kefsrun("true", options=("-m", length)), 125, "no length")

    def test_refusals(self):
        self.says(self.kefsrun("no-such-command"), 127, "No such file")
        self.says(self.kefsrun(self.folder), 126, "Permission denied")
        with open(self.data, "w") as file:
            file.write("x")
        self.says(self.kefsrun("true"), 125, "has bytes of its own")
        os.unlink(self.data)
        os.mkdir(self.data)
        self.says(self.kefsrun("true"), 125, "Is a directory")

    def test_the_image_is_no_data_file(self):
        def says_so(data):
            done = subprocess.run([KEFSRUN, "-m", "64K", self.image, data, "--", "cat", data], capture_output=True, text=True)
            self.says(done, 125, "is the image itself")

        says_so(self.image)
        says_so(os.path.join(self.folder, ".", "image"))
        self.assertFalse(os.path.exists(self.image))
        os.symlink(self.image, self.data)
        says_so(self.data)
        says_so(self.data)
        os.unlink(self.data)
        os.link(self.image, self.data)
        says_so(self.data)

    def test_no_image(self):
        with open(self.image, "wb") as file:
            file.write(bytes(1 << 20))
        done = self.python("")
        self.assertEqual(done.returncode, 1)
        self.assertIn("kefsrun: ", done.stderr)
        self.assertIn(os.strerror(errno.EINVAL), done.stderr)

    def test_calls(self):
        for seed in range(12):
            plain = os.path.join(self.folder, f"plain.{seed}")
            words = (str(seed), "300")
            expected = subprocess.run([sys.executable, os.path.join(HERE, "calls.py"), plain, *words], capture_output=True, text=True, check=True)
            tracker = "signal" if seed % 2 else "scan"
            done = self.kefsrun(sys.executable, os.path.join(HERE, "calls.py"), self.data, *words, KEFS_TRACKER=tracker)
            self.assertEqual((done.returncode, done.stderr), (0, ""))
            self.assertEqual(done.stdout, expected.stdout)
            with open(plain, "rb") as file:
                at_the_end = file.read()
            self.assertEqual(self.python("print(os.pread(fd, 1 << 16, 0).hex())").stdout.strip(), at_the_end.hex())
            self.assertEqual(os.path.getsize(self.data), 0)
            os.unlink(self.image)

    def test_import(self):
        for options, text in itertools.product((("-m", "64K", "-i"), ("-i",)), ("", "x", "a page and more, " * 600)):
            with self.subTest(options=options, length=len(text)):
                with open(self.data, "w") as file:
                    file.write(text)
                done = self.kefsrun("cat", self.data, options=options)
                self.assertEqual((done.returncode, done.stdout, done.stderr), (0, text, ""))
                with open(f"{self.data}.before") as file:
                    self.assertEqual(file.read(), text)
                self.assertEqual(self.content(), text)
                for name in (self.image, self.data, f"{self.data}.before"):
                    os.unlink(name)

    def test_no_import(self):
        for options in (("-i",), ("-m", "1K", "-i")):
            self.says(self.kefsrun("true", options=options), 125, "No such file")
        with open(self.data, "w") as file:
            file.write("x" * 1025)
        self.says(self.kefsrun("true", options=("-m", "1K", "-i")), 125, "more bytes than -m says")
        with open(f"{self.data}.before", "w"):
            pass
        self.says(self.kefsrun("true", options=("-m", "2K", "-i")), 125, "File exists")
        self.assertFalse(os.path.exists(self.image))

    def test_the_advice_leads_out(self):
        with open(self.data, "w") as file:
            file.write("Ada 1815")
        self.says(self.kefsrun("true"), 125, "-i takes them in")
        self.assertFalse(os.path.exists(self.image))
        done = self.kefsrun("cat", self.data, options=("-m", "64K", "-i"))
        self.assertEqual((done.returncode, done.stdout, done.stderr), (0, "Ada 1815", ""))

    def test_an_import_that_was_killed_is_ended(self):
        with open(self.data, "w") as file:
            file.write("Ada 1815")
        self.kefsrun("true", options=("-m", "64K", "-i"))
        os.rename(f"{self.data}.before", self.data)  # as before the file got its other name
        self.says(self.kefsrun("true"), 125, "the same words again end it")
        done = self.kefsrun("cat", self.data, options=("-m", "64K", "-i"))
        self.assertEqual((done.returncode, done.stdout, done.stderr), (0, "Ada 1815", ""))
        with open(f"{self.data}.before") as file:
            self.assertEqual(file.read(), "Ada 1815")
        with open(self.data, "w") as file:
            file.write("Ada 1816")
        self.says(self.kefsrun("true", options=("-m", "64K", "-i")), 125, "move one of the two away")

    def test_a_program_that_is_not_preloaded_is_told(self):
        done = self.kefsrun("sh", "-c", 'env -i sh -c "echo past > $0"; true', self.data)
        self.says(done, 0, "by a call that is not answered")
        self.says(self.kefsrun("true", options=()), 125, "has bytes of its own")

    def test_a_read_past_the_page_cache_into_the_mapping_is_refused(self):
        other = os.path.join(HERE, "out", "direct")
        with open(other, "wb") as file:
            file.write(b"d" * 8192)
        text = f"""
os.ftruncate(fd, 8192)
m = mmap.mmap(fd, 8192)
direct = os.open({other!r}, os.O_RDONLY | os.O_DIRECT)
for read in (lambda: os.readv(direct, [m]), lambda: os.preadv(direct, [m], 0)):
    try:
        read()
        print("read")
    except OSError as error:
        print(error.errno)
os.readv(os.open({other!r}, os.O_RDONLY), [m])
print(m[0])
"""
        done = self.python(text)
        self.assertEqual((done.returncode, done.stdout), (0, f"{errno.EINVAL}\n{errno.EINVAL}\n{ord('d')}\n"))
        self.assertIn("a read with O_DIRECT into its mapping", done.stderr)

    def test_a_roll_back_of_an_update_that_was_too_large(self):
        begin = "import sqlite3, sys\nbase = sqlite3.connect(sys.argv[1])\nbase.execute('pragma synchronous=full')\n"
        fill = begin + "base.execute('create table t(id integer primary key, b blob)')\nfor i in range(42):\n  with base:\n    base.executemany('insert into t(b) values(?)', [(b'a' * 4000,)] * 100)\n"
        update = begin + "base.execute('pragma cache_size=10')\nbase.execute('update t set b=?', (b'b' * 4000,))\nbase.commit()\n"
        check = begin + "print(base.execute('select count(*), sum(b = ?) from t', (b'a' * 4000,)).fetchone(), base.execute('pragma integrity_check').fetchone())\n"

        def run(text):
            return self.kefsrun(sys.executable, "-c", text, self.data, options=("-m", "24M"))

        self.assertEqual(run(fill).returncode, 0)
        self.assertNotEqual(run(update).returncode, 0)
        done = run(check)
        self.assertEqual((done.returncode, done.stdout), (0, "(4200, 4200) ('ok',)\n"), done.stderr)
        self.assertFalse(os.path.exists(f"{self.data}-journal"))

    def test_an_orderly_end_keeps_what_was_stored(self):
        self.python("os.pwrite(fd, b'kept', 0)\nos.close(fd)\n")
        self.assertEqual(self.content(), "kept")
        self.python("os.pwrite(fd, b'also', 4)\n")
        self.assertEqual(self.content(), "keptalso")

    def test_a_kill_leaves_what_the_last_sync_left(self):
        done = self.python("os.pwrite(fd, b'synced', 0)\nos.fsync(fd)\nos.pwrite(fd, b'not synced', 0)\nos.kill(os.getpid(), signal.SIGKILL)\n")
        self.assertEqual(done.returncode, -signal.SIGKILL)
        self.assertEqual(self.content(), "synced")

    def test_which_syncs_commit(self):
        kill = "os.kill(os.getpid(), signal.SIGKILL)\n"
        store = "os.ftruncate(fd, 8192)\nm = mmap.mmap(fd, 8192)\nm[0:1] = b'x'\n"
        for commit_at, sync, is_kept in (
            ("every", "m.flush()\n", True),
            ("fsync", "m.flush()\n", False),
            ("fsync", "os.fsync(fd)\n", True),
            ("part", "m.flush()\n", False),
            ("part", "m.flush(0, 4096)\n", True),
            ("part", "os.fdatasync(fd)\n", True),
        ):
            with self.subTest(commit_at=commit_at, sync=sync):
                self.python(store + sync + kill, options=("-m", "64K", "-c", commit_at))
                self.assertEqual(self.content()[:1], "x" if is_kept else "")
                os.unlink(self.image)

    def test_a_child_has_no_image(self):
        text = (
            "os.pwrite(fd, b'parent', 0)\n"
            "child = os.fork()\n"
            "if child == 0:\n"
            "    for call in (lambda: os.pread(fd, 1, 0), lambda: os.pwrite(fd, b'child', 0), lambda: os.fsync(fd), lambda: os.ftruncate(fd, 0)):\n"
            "        try:\n"
            "            call()\n"
            "            os._exit(1)\n"
            "        except OSError as error:\n"
            "            if error.errno != 5: os._exit(2)\n"
            "    os.close(fd)\n"
            "    os._exit(0)\n"
            "assert os.waitpid(child, 0)[1] == 0\n"
            "os.pwrite(fd, b', and after', 6)\n"
            "os.fsync(fd)\n"
            "os.kill(os.getpid(), signal.SIGKILL)\n"
        )
        self.assertEqual(self.python(text).returncode, -signal.SIGKILL)
        self.assertEqual(self.content(), "parent, and after")

    def test_one_program_at_a_time(self):
        inner = f"import os\nos.open({self.data!r}, os.O_RDWR)"
        done = self.python(f"import subprocess, sys\nsys.exit(subprocess.run([sys.executable, '-c', {inner!r}]).returncode)")
        self.says(done, 1, os.strerror(errno.EBUSY))

    def test_a_commit_of_over_4032_pages(self):
        most = ("-m", "16M")
        text = "os.ftruncate(fd, 1 << 24)\nos.fsync(fd)\nm = mmap.mmap(fd, 1 << 24)\nfor k in range({0}): m[4096 * k] = {1}\ntry:\n    os.fsync(fd)\nexcept OSError as error:\n    print(error.errno)\n"
        self.assertEqual(self.python(text.format(4032, 1), options=most).stdout, "")
        self.assertEqual(self.python(text.format(4033, 1), options=most).stdout, "")  # all but one are as they are durable
        done = self.python(text.format(4033, 2), options=most)
        self.assertEqual(done.stdout, f"{errno.E2BIG}\n")
        self.assertIn("over 4032 pages", done.stderr)
        self.assertIn("kefsrun -j makes such a sync by several commits", done.stderr)

    def test_a_sync_of_several_commits(self):
        text = "os.ftruncate(fd, 1 << 25)\nm = mmap.mmap(fd, 1 << 25)\nfor k in range(8192): m[4096 * k] = {0}\nos.fsync(fd)\n"
        self.says(self.python(text.format(1), options=("-j", "-v")), 0, "1 commits of 8192 pages")
        grown = "os.ftruncate(fd, (1 << 25) + 5000)\nos.fsync(fd)\nos.kill(os.getpid(), signal.SIGKILL)\n"
        self.says(self.python(text.format(2), options=("-j", "-v")), 0, "3 commits of 8192 pages")
        self.assertEqual(self.python(text.format(3).replace("os.fsync(fd)\n", "") + grown, options=("-j",)).returncode, -signal.SIGKILL)
        self.assertEqual(self.python("print(os.fstat(fd).st_size, set(os.pread(fd, 1, 4096 * k)[0] for k in range(8192)))").stdout, f"{(1 << 25) + 5000} {{3}}\n")

    def test_what_is_refused(self):
        for call, number in (
            ("os.link(path, path + '.other')", errno.EPERM),
            ("os.write(os.open(path, os.O_RDONLY), b'x')", errno.EBADF),
            ("os.read(os.open(path, os.O_WRONLY), 1)", errno.EBADF),
            ("os.splice(fd, os.pipe()[1], 1)", errno.EINVAL),
            ("os.copy_file_range(fd, 2, 1)", errno.EXDEV),
            ("os.sendfile(1, fd, 0, 1)", errno.EINVAL),
            ("os.ftruncate(fd, (1 << 16) + 1)", errno.EFBIG),
            ("os.pwrite(fd, b'xx', (1 << 16) - 1)", errno.EFBIG),
            ("os.ftruncate(fd, 1 << 16), mmap.mmap(fd, 1 << 16, flags=mmap.MAP_PRIVATE)", errno.ENOTSUP),
        ):
            with self.subTest(call=call):
                done = self.python(f"try:\n    {call}\nexcept OSError as error:\n    print(error.errno)\n")
                self.assertEqual(done.stdout, f"{number}\n", done.stderr)

    def test_a_mapping_beyond_the_length(self):
        text = (
            "import ctypes\n"
            "mmap = ctypes.CDLL(None, use_errno=True).mmap\n"
            "mmap.restype, mmap.argtypes = ctypes.c_void_p, [ctypes.c_void_p, ctypes.c_size_t, ctypes.c_int, ctypes.c_int, ctypes.c_int, ctypes.c_long]\n"
            "print([(mmap(None, size, 3, 1, fd, at) == 2**64 - 1 and ctypes.get_errno()) for size, at in ((1 << 16, 4096), (1 << 40, 0), (1 << 46, 0))])\n"
        )
        done = self.python(text)
        self.assertEqual(done.stdout, f"[False, False, {errno.ENOMEM}]\n")
        self.says(done, 0, "a mapping of so many bytes")

    @unittest.skipUnless(shutil.which("kchashmgr"), "Kyoto Cabinet's tools are missing")
    def test_the_lines_of_the_page(self):
        with open(os.path.join(HERE, "..", "..", "docs", "C.md")) as page:
            lines = re.search(r"^    \$ kefsrun .*\n(    .*\n)*", page.read(), re.M)[0].splitlines()
        commands = "\n".join(line[6:] for line in lines if line.startswith("    $ "))
        shown = "".join(line[4:] + "\n" for line in lines if not line.startswith("    $ "))
        path = os.path.dirname(KEFSRUN) + os.pathsep + os.environ["PATH"]
        done = subprocess.run(["sh", "-ec", commands], cwd=self.folder, capture_output=True, text=True, env=os.environ | {"PATH": path})
        self.assertEqual((done.returncode, done.stdout, done.stderr), (0, shown, ""))

    def test_a_call_that_is_not_answered_is_told(self):
        text = "import ctypes\nctypes.CDLL(None).syscall(1, fd, b'past the image', 14)\n"
        self.says(self.python(text), 0, "by a call that is not answered")


class Cases(Runs):
    """Cases of cases.c, and other people's programs."""

    def case(self, name, shown="", left=None, status=0, told=None):
        """Runs a case: what it shows, what is durable then, its status, and what it is told, if anything."""
        with self.subTest(case=name):
            other = os.path.join(self.folder, "other")
            done = self.kefsrun(CASES, name, self.data, other)
            self.assertEqual((done.stdout, done.returncode), (shown, status), done.stderr)
            if told is None:
                self.assertEqual(done.stderr, "")
            else:
                self.assertIn(told, done.stderr)
            if left is not None:
                self.assertEqual(self.content(), left)
            self.assertEqual(os.path.getsize(self.data), 0)
            return other

    def filled(self, text):
        """The data file has these bytes."""
        done = self.python(f"os.pwrite(fd, {text!r}.encode(), 0)\n")
        self.assertEqual((done.returncode, done.stderr), (0, ""))

    def test_the_number_of_a_closed_descriptor_is_another_files(self):
        for name in ("fclosed", "closed_by_the_system"):
            other = self.case(name, left="the store's")
            with open(other) as file:
                self.assertEqual(file.read(), "the other's")
            os.unlink(other)

    def test_dup2_over_the_last_descriptor(self):
        other = os.path.join(self.folder, "other")
        text = (
            "os.write(fd, b'stored')\n"
            f"os.dup2(os.open({other!r}, os.O_RDWR | os.O_CREAT), fd)\n"
            "os.write(fd, b'other')\n"
            "os.kill(os.getpid(), signal.SIGKILL)\n"
        )
        self.assertEqual(self.python(text).returncode, -signal.SIGKILL)
        self.assertEqual(self.content(), "stored")
        with open(other) as file:
            self.assertEqual(file.read(), "other")

    def test_descriptors_of_dup_are_one_file(self):
        text = (
            "other = os.dup(fd)\n"
            "os.write(fd, b'one, ')\n"
            "os.write(other, b'two')\n"
            "os.close(fd)\n"
            "os.fsync(other)\n"
            "os.pwrite(other, b'not synced', 0)\n"
            "os.kill(os.getpid(), signal.SIGKILL)\n"
        )
        self.assertEqual(self.python(text).returncode, -signal.SIGKILL)
        self.assertEqual(self.content(), "one, two")

    def test_a_mapping_grows_where_it_is(self):
        left = "begin".ljust(8192, "\0") + "end".ljust(4096, "\0")
        self.case("remapped", "begin end, moved: 0 1\n", left, told="mremap to elsewhere")

    def test_sqlite_maps_its_file(self):
        text = (
            "import sqlite3\n"
            "store = sqlite3.connect(path)\n"
            "print(store.execute('pragma mmap_size=1000000').fetchone()[0] > 0, store.execute('pragma journal_mode=off').fetchone())\n"
            "store.execute('create table t (k integer primary key, v)')\n"
            "for k in range(120):\n"
            "    with store: store.execute('insert into t values (?, ?)', (k, 'v' * 1000))\n"
            "print(store.execute('select count(*), sum(length(v)) from t').fetchone(), store.execute('pragma integrity_check').fetchone())\n"
        )
        done = self.python(text, options=("-m", "1M"))
        self.assertEqual((done.stdout, done.stderr), ("True ('off',)\n(120, 120000) ('ok',)\n", ""))
        done = self.python("import sqlite3\nprint(sqlite3.connect(path).execute('select count(*) from t').fetchone())")
        self.assertEqual((done.stdout, done.stderr), ("(120,)\n", ""))

    def test_threads_lengthen_the_file(self):
        self.case("threads", "wrong: 0\n", "12345678" * 64)

    def test_what_a_child_of_vfork_closes_is_its_own(self):
        self.case("vforked", left="after", status=-signal.SIGKILL)

    def test_streams(self):
        self.case("written_stream", left="one, three", status=-signal.SIGKILL)
        self.case("open_stream", left="one, threeat the end")
        self.case("read_stream", "one, threeat the end")
        self.case("reopened_stream", "1\n", told="freopen")

    def test_facts_and_room(self):
        self.case("facts", "5 5 8\n")
        os.unlink(self.image)
        self.case("allocated", "5000 1 1 1\n", "x".ljust(5000, "\0"), told="it may not get so long")

    def test_what_would_reach_the_empty_file(self):
        self.case("asynchronous", "1\n", told="asynchronous")
        self.case("cloned", "1 1\n")

    def test_what_would_not_load_the_library(self):
        path = os.path.join(self.folder, "static")
        done = subprocess.run([os.environ.get("CC", "cc"), "-static", "-x", "c", "-o", path, "-"], input="int main(void) { return 0; }", text=True, capture_output=True)
        if done.returncode != 0:
            self.skipTest("there is no static C library")
        self.says(self.kefsrun(path), 125, "is linked statically")
        self.says(self.kefsrun("static", PATH=self.folder), 125, "is linked statically")
        self.assertFalse(os.path.exists(self.image))

    def test_no_rings(self):
        done = self.python("import ctypes\nprint(ctypes.CDLL(None, use_errno=True).syscall(425, 8, bytes(120)), ctypes.get_errno())\n")
        self.assertEqual(done.stdout, f"-1 {errno.ENOSYS}\n")

    def test_orderly_ends(self):
        self.case("called", "after\n", "before exec")
        self.case("ended", left="before _exit")
        self.case("ended_quickly", left="before quick_exit")

    def test_an_end_in_the_midst_of_a_sync(self):
        for _ in range(5):
            self.case("interrupted", left="whole")

    def test_a_copy_has_the_bytes(self):
        lines = "".join(f"{number}\n" for number in range(3000))
        self.filled(lines)
        plain = os.path.join(self.folder, "plain")
        with open(plain, "w") as file:
            file.write(lines)
        sums = subprocess.run(["sha1sum"], input=lines, capture_output=True, text=True, check=True).stdout.split()[0]
        for words, shown in (
            (("sha1sum", self.data), f"{sums}  {self.data}\n"),
            (("dd", f"if={self.data}", f"of={plain}.dd", "status=none"), ""),
            (("cp", self.data, f"{plain}.cp"), ""),
            (("cmp", self.data, plain), ""),
            (("stat", "-c", "%s %b", self.data), f"{len(lines)} 32\n"),
            (("bash", "-c", f"sha1sum < {self.data}"), f"{sums}  -\n"),
            (("sh", "-c", f"tar cPf - {self.data} | tar xPOf -"), lines),
            (("sh", "-c", f"test -s {self.data} && cat {self.data}"), lines),
        ):
            with self.subTest(words=words):
                done = self.kefsrun(*words)
                self.assertEqual((done.returncode, done.stderr), (0, ""))
                self.assertEqual(done.stdout, shown)
        for copy in (f"{plain}.dd", f"{plain}.cp"):
            with open(copy) as file:
                self.assertEqual(file.read(), lines)

    def test_a_shell_writes(self):
        self.filled("older and longer")
        for shell in ("sh", "bash"):
            for words, left in ((f"echo new > {self.data}", "new\n"), (f"echo more >> {self.data}", "new\nmore\n"), (f"truncate -s 3 {self.data}", "new")):
                with self.subTest(words=words, shell=shell):
                    done = self.kefsrun(shell, "-c", words)
                    self.assertEqual((done.returncode, done.stderr), (0, ""))
                    self.assertEqual(self.content(), left)

    def test_a_file_that_a_shell_holds_is_told_as_busy(self):
        self.filled("bytes")
        done = self.kefsrun("sh", "-c", f"exec 3< {self.data}; cat {self.data}")
        self.says(done, 1, os.strerror(errno.EBUSY))


if __name__ == "__main__":
    unittest.main()
