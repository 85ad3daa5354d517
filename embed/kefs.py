"""Failure-atomic msync from Python, 3.8 or later: the calls of kefs.h (libkefs.so.2), whose comments say what each does and when it fails.

    import kefs

    kefs.format("bank.img", [1 << 20, kefs.File(4096, read_only=True, content=terms)])
    with kefs.open("bank.img") as image:
        accounts = image.map(0)                  # a memoryview: slices, struct.pack_into, numpy.frombuffer
        with image.transaction():                # committed at its end, rolled back where an exception leaves it
            accounts[0:8] = (1).to_bytes(8, "little")

    with kefs.open("notes.img", names=True) as image:   # files that have names, and come and go
        with image.transaction():
            image.create_file("draft", 5000)
            image.map(image.lookup("draft"), most=1 << 30)[:5] = b"hello"
            image.rename("draft", "note")

An errno value is raised as OSError, each other result as an exception of its own, all of them of class Error. When its image is closed, its
file unmapped or given another length, the memoryview that map() gave is released, so that Python refuses each use of it; but where others were made of it
that still live, as slices and arrays, these calls are refused with BufferError, and nothing was done. An image that is dropped is
closed with the last view of it. A child of os.fork has no image: its memoryviews are released, and what was made of them is of zeros that no commit takes.
A call that a signal interrupts goes on after Python's handler, unless that raises.
The library is looked for as the environment's KEFS_LIBRARY says, beside this file, and where the system has libraries."""

import contextlib
import ctypes
import errno
import gc
import mmap
import os
import sys
import threading
import time
import weakref
from typing import NamedTuple

RDONLY, NOWAIT, TRACK_SCAN, TRACK_SIGNAL, TRACK_CALLER, LAZY, SNAPSHOT = 1, 2, 4, 8, 16, 32, 128
PAGE, MOST_PAGES = 4096, 1023  # of one commit of layout 2; stat() says how many of any image
BEFORE, AFTER = 0, 1
_CREATE, _NAMES = 64, 256
_FILES, _LONGEST = 4096, 1 << 42  # files of an image, and bytes of one, at most


class Error(Exception):
    """A result of the library that is under 0, its `result`."""

    result = 0

    def __init__(self, message=""):
        text = _library().kefs_strerror(self.result).decode()
        super().__init__(f"{text} ({message})" if message else text)


class NotImage(Error):
    result = -31001


class BadJournal(Error):
    result = -31002


class Busy(Error):
    result = -31003


class NoFile(Error):
    result = -31004


class TooMany(Error):
    result = -31005


class ReadOnly(Error):
    result = -31006


class BadRange(Error):
    result = -31007


class Device(Error):
    result = -31008


class Halted(Error):
    result = -31009


class NoTracker(Error):
    result = -31010


class Forked(Error):
    result = -31011


class BadArgument(Error):
    result = -31012


class OtherFiles(Error):
    result = -31013


ERRORS = {error.result: error for error in Error.__subclasses__()}


class File(NamedTuple):
    """A file of a new image: `length` bytes, which are those of `content` with zeros after them. A sparse one takes room on the device
    as its pages are committed. An image that is there may have one that grows with any length."""

    length: int
    read_only: bool = False
    content: bytes = b""
    sparse: bool = False
    grows: bool = False


class _File(ctypes.Structure):
    _fields_ = [("length", ctypes.c_uint64), ("flags", ctypes.c_uint32), ("content", ctypes.c_char_p)]


class _Options(ctypes.Structure):
    _fields_ = [("size", ctypes.c_size_t), ("wait", ctypes.c_uint32), ("permissions", ctypes.c_uint32), ("files", ctypes.c_void_p), ("count", ctypes.c_size_t),
                ("pool", ctypes.c_uint32), ("places", ctypes.c_uint32)]


class _Range(ctypes.Structure):
    _fields_ = [("at", ctypes.c_void_p), ("length", ctypes.c_size_t)]


class _Stat(ctypes.Structure):
    _fields_ = [("size", ctypes.c_size_t), ("files", ctypes.c_uint32), ("most_pages", ctypes.c_uint32)] + [
        (name, ctypes.c_uint64) for name in ("pages", "recovered", "commits", "committed_pages", "written_bytes", "syncs")
    ] + [("tracker", ctypes.c_char_p), ("lazy", ctypes.c_uint32), ("layout", ctypes.c_uint32)]


_CALLS = {
    "kefs_format": (ctypes.c_char_p, ctypes.c_uint, ctypes.c_void_p, ctypes.c_size_t),
    "kefs_open_with": (ctypes.c_void_p, ctypes.c_char_p, ctypes.c_uint, ctypes.c_void_p),
    "kefs_close": (ctypes.c_void_p,),
    "kefs_map": (ctypes.c_void_p, ctypes.c_uint, ctypes.c_void_p, ctypes.c_void_p, ctypes.c_void_p),
    "kefs_map_growing": (ctypes.c_void_p, ctypes.c_uint, ctypes.c_void_p, ctypes.c_size_t, ctypes.c_void_p, ctypes.c_void_p),
    "kefs_unmap": (ctypes.c_void_p, ctypes.c_uint),
    "kefs_resize": (ctypes.c_void_p, ctypes.c_uint, ctypes.c_size_t),
    "kefs_add_file": (ctypes.c_void_p, ctypes.c_uint, ctypes.c_size_t),
    "kefs_remove_file": (ctypes.c_void_p, ctypes.c_uint),
    "kefs_lookup": (ctypes.c_void_p, ctypes.c_char_p, ctypes.c_void_p),
    "kefs_create_file": (ctypes.c_void_p, ctypes.c_char_p, ctypes.c_size_t, ctypes.c_void_p),
    "kefs_rename": (ctypes.c_void_p, ctypes.c_char_p, ctypes.c_char_p),
    "kefs_unlink": (ctypes.c_void_p, ctypes.c_char_p),
    "kefs_name_at": (ctypes.c_void_p, ctypes.c_uint, ctypes.c_void_p),
    "kefs_length": (ctypes.c_void_p, ctypes.c_uint, ctypes.c_void_p),
    "kefs_commit": (ctypes.c_void_p, ctypes.c_void_p, ctypes.c_size_t, ctypes.c_void_p),
    "kefs_commit_start": (ctypes.c_void_p, ctypes.c_void_p, ctypes.c_size_t, ctypes.c_void_p, ctypes.c_void_p),
    "kefs_commit_wait": (ctypes.c_void_p, ctypes.c_uint64),
    "kefs_count_dirty": (ctypes.c_void_p, ctypes.c_void_p, ctypes.c_size_t, ctypes.c_void_p),
    "kefs_rollback": (ctypes.c_void_p, ctypes.c_void_p, ctypes.c_size_t),
    "kefs_recover": (ctypes.c_void_p, ctypes.c_void_p),
    "kefs_tidy": (ctypes.c_void_p,),
    "kefs_refresh": (ctypes.c_void_p, ctypes.c_void_p),
    "kefs_backup": (ctypes.c_void_p, ctypes.c_char_p, ctypes.c_uint),
    "kefs_mark_dirty": (ctypes.c_void_p, ctypes.c_void_p, ctypes.c_size_t),
    "kefs_touch": (ctypes.c_void_p, ctypes.c_void_p, ctypes.c_size_t),
    "kefs_stat": (ctypes.c_void_p, ctypes.c_void_p),
    "kefs_strerror": (ctypes.c_int,),
    "kefs_errmsg": (ctypes.c_void_p,),
    "kefs_version": (),
}
_loaded = None


def _library():
    """The C library, loaded when it is first needed."""
    global _loaded
    if _loaded is None:
        beside = os.path.join(os.path.dirname(os.path.abspath(__file__)), "libkefs.so.2")
        name = os.environ.get("KEFS_LIBRARY") or (beside if os.path.exists(beside) else "libkefs.so.2")
        library = ctypes.CDLL(name)
        for call, arguments in _CALLS.items():
            getattr(library, call).argtypes = arguments
        library.kefs_strerror.restype = library.kefs_errmsg.restype = ctypes.c_char_p
        _loaded = library
    return _loaded


def _check(result, message="", path=None):
    if result > 0:
        raise OSError(result, os.strerror(result), path)
    if result < 0:
        raise ERRORS.get(result, Error)(message)


def version():
    """The library's version: a million times the major number, a thousand times the minor one, and the patch."""
    return _library().kefs_version()


def _array(files):
    """The files of a new image as the library takes them. Each is a File, or a length in bytes."""
    specs = [file if isinstance(file, File) else File(file) for file in files]
    for spec in specs:
        if not 0 <= spec.length <= _LONGEST or len(spec.content) > spec.length:
            raise ValueError("a file has 0 to 2^42 bytes, and no more content")
    array = (_File * len(specs))()
    for entry, spec in zip(array, specs):
        content = bytes(spec.content).ljust(spec.length, b"\0") if spec.content else None
        entry.length, entry.flags, entry.content = spec.length, spec.read_only | spec.sparse << 1 | spec.grows << 2, content
    return array


def _last_message():
    return _library().kefs_errmsg(None).decode(errors="replace")


def format(path, files, permissions=0o600):
    """Makes an image at `path`, where nothing may be. Each file is a File, or a length in bytes."""
    array = _array(files)
    result = _library().kefs_format(os.fsencode(path), permissions, array, len(array))
    _check(result, _last_message(), path)


_DOFORK, _WIPEONFORK = 11, 18  # of madvise(2)


def _libc():
    libc = ctypes.CDLL(None, use_errno=True)
    libc.mmap.restype = ctypes.c_void_p
    libc.mmap.argtypes = (ctypes.c_void_p, ctypes.c_size_t, ctypes.c_int, ctypes.c_int, ctypes.c_int, ctypes.c_long)
    libc.madvise.argtypes = (ctypes.c_void_p, ctypes.c_size_t, ctypes.c_int)
    return libc


def _put_zeros(at, length):
    """Maps zeros where a view may look and no mapped file is any more."""
    fixed, opened = mmap.MAP_PRIVATE | mmap.MAP_ANONYMOUS | 0x4000 | 0x10, mmap.PROT_READ | mmap.PROT_WRITE  # MAP_NORESERVE, MAP_FIXED
    _libc().mmap(at, length, opened, fixed, -1, 0)


class _Handle:
    """The handle of an open image. It is closed with the last of the image and its views."""

    def __init__(self, at):
        self.at = at

    def close(self):
        at, self.at = self.at, None
        return 0 if at is None else _library().kefs_close(at)

    def __del__(self):
        with contextlib.suppress(Exception):
            self.close()


class _Bytes(ctypes.Array):
    """Memory of a mapped file, one array type for each length. It keeps the handle open for as long as a view of it lives."""

    _type_, _length_ = ctypes.c_ubyte, 0


def _bytes_at(at, length, handle):
    """A child of os.fork finds the memory's place taken, by zeros where the system can do so, so that nothing else of the child's can be there when
    _leave_parent comes."""
    for advice in (_WIPEONFORK, _DOFORK):
        _libc().madvise(at, length, advice)
    found = type("_Bytes", (_Bytes,), {"_length_": length}).from_address(at)
    found.handle = handle
    return found


class _Mapped:
    """The bytes of a mapped file, and the memoryview that is given out of them."""

    def __init__(self, at, length, read_only, handle=None):
        self.bytes = _bytes_at(at, length, handle) if at else bytearray()
        self.at, self.length, self.read_only, self.view = at, length, read_only, None

    def whole(self):
        """The memoryview, made anew where it was released."""
        if self.view is None or _is_released(self.view):
            view = memoryview(self.bytes).cast("B")
            self.view = view.toreadonly() if self.at and self.read_only else view
        return self.view

    def counts(self):
        """How many references there are to the bytes and, where the memoryview lives, to the buffer that all memoryviews made of one another share."""
        if self.view is None or _is_released(self.view):
            return sys.getrefcount(self.bytes), 0
        (buffer,) = gc.get_referents(self.view)
        return sys.getrefcount(self.bytes), sys.getrefcount(buffer)

    def refuse_where_used(self):
        """Raises BufferError where other memoryviews of these bytes live, or arrays over them. How many references there are where none lives differs
        between versions of Python, so it is counted of bytes that nobody uses."""
        unused = _Mapped(0, 0, False)
        unused.bytes = (ctypes.c_ubyte * 1)()
        if self.view is not None and not _is_released(self.view):
            unused.read_only, unused.at = self.read_only, self.at
            unused.whole()
        if any(mine > others for mine, others in zip(self.counts(), unused.counts())):
            raise BufferError("a view of the mapped file is still in use")

    def zero_from(self, length):
        """Puts zeros in the place of the pages behind so many bytes, where nothing is: a touch would end the process."""
        first = -(-length // PAGE) * PAGE
        if first < self.length:
            _put_zeros(self.at + first, self.length - first)

    def release(self):
        """Releases the memoryview. BufferError: an array has it."""
        if self.view is not None:
            self.view.release()
            self.view = None


def _is_released(view):
    try:
        return view.nbytes < 0
    except ValueError:
        return True


_images = weakref.WeakSet()


def _leave_parent():
    """In a child of os.fork: zeros take the place of the mapped memory, where a view that lives may look."""
    for image in list(_images):
        image._lock, image._waits = threading.RLock(), 0
        image._idle = threading.Condition(image._lock)
        for mapped in image._mapped.values():
            if mapped.at:
                _put_zeros(mapped.at, mapped.length)
            with contextlib.suppress(BufferError):
                mapped.release()


os.register_at_fork(after_in_child=_leave_parent)


class Image:
    """An open image. It is closed by close(), or at the end of a `with`. Threads may share it: a call waits for the one before, but not for that of Started.wait()."""

    def __init__(self, path, flags=0, wait=0, create=None, permissions=0o600, pool=0, names=False, places=0):
        handle, options = ctypes.c_void_p(), _Options(size=ctypes.sizeof(_Options), wait=wait, permissions=permissions, pool=pool, places=places)
        self._handle, self._mapped, self._lock, self._wait = None, {}, threading.RLock(), wait
        self._waits, self._idle = 0, threading.Condition(self._lock)  # threads that wait for commits, beside other calls
        self._resized = set()  # files that a roll back may give another length
        end = time.monotonic() + wait / 1000
        if create is not None:
            array, flags = _array(create), flags | _CREATE
            options.files, options.count = ctypes.cast(array, ctypes.c_void_p), len(array)
        if names:
            flags |= _CREATE | _NAMES
        while (result := _library().kefs_open_with(ctypes.byref(handle), os.fsencode(path), flags, ctypes.byref(options))) == errno.EINTR:
            options.wait = wait and max(1, int(1000 * (end - time.monotonic())))
        _check(result, _last_message(), path)
        self._handle = _Handle(handle)
        _images.add(self)

    def _call(self, name, *arguments):
        with self._lock:
            if self._handle is None:
                raise ValueError("the image is closed")
            end = time.monotonic() + self._wait / 1000
            while (result := getattr(_library(), name)(self._handle.at, *arguments)) == errno.EINTR:
                if self._wait and time.monotonic() >= end:
                    raise Busy("the wait of the opening's is over")
            if result != 0:
                _check(result, "" if result == Forked.result else _library().kefs_errmsg(self._handle.at).decode(errors="replace"))

    def map(self, file, wanted=None, most=0):
        """The bytes of a file as a memoryview, at the address `wanted` where it is given. It takes no store where the file or the image may
        only be read. The file may grow up to `most` bytes while it is mapped."""
        at, length = ctypes.c_void_p(), ctypes.c_size_t()
        with self._lock:
            self._call("kefs_map_growing", file, wanted, most, ctypes.byref(at), ctypes.byref(length))
            if file not in self._mapped:
                self._mapped[file] = _Mapped(at.value, length.value, bool(at.value) and self._is_read_only(at), self._handle)
            return self._mapped[file].whole()

    def _is_read_only(self, at):
        return _library().kefs_mark_dirty(self._handle.at, at, 0) == ReadOnly.result

    def _release(self, files):
        """Releases the memoryviews of these mapped files. BufferError: a view that was made of one is in use; then none was
        released, but where an array is made of the memoryview itself."""
        for file in files:
            self._mapped[file].refuse_where_used()
        for file in files:
            self._mapped[file].release()

    def unmap(self, file):
        """Unmaps a file: what was not committed of it is lost. BufferError: a view of it is in use, as a slice; nothing was done."""
        with self._lock:
            if file in self._mapped:
                self._release([file])
            self._mapped.pop(file, None)  # before the memory goes, as a child of another thread's fork puts zeros where it was
            self._call("kefs_unmap", file)
            self._resized.discard(file)

    def length(self, file):
        """The length of a file in bytes."""
        length = ctypes.c_size_t()
        self._call("kefs_length", file, ctypes.byref(length))
        return length.value

    def resize(self, file, length):
        """Gives a file another length, which a commit makes durable; what it gets more is zeros. The memoryview that map() gave is released, and map() gives the
        next one. BufferError: a view of it is in use, as a slice; nothing was done."""
        with self._lock:
            mapped = self._mapped.get(file)
            if mapped is not None:
                self._release([file])
            self._call("kefs_resize", file, length)
            self._resized.add(file)
            if mapped is not None:
                self._map_anew(file)

    def _map_anew(self, file):
        """Has the bytes of a mapped file be those that it has now. One that is not there any more, since its making was rolled back, is unmapped."""
        at, length = ctypes.c_void_p(), ctypes.c_size_t()
        mapped = self._mapped.pop(file)
        try:
            self._call("kefs_map", file, None, ctypes.byref(at), ctypes.byref(length))
        except NoFile:
            if mapped.at:
                self._call("kefs_unmap", file)
            return
        self._mapped[file] = _Mapped(at.value, length.value, mapped.read_only, self._handle)

    def add_file(self, file, length=0):
        """Makes a file of zeros, of a number that the image has not. It comes with the next commit of all."""
        with self._lock:
            self._call("kefs_add_file", file, length)
            self._resized.add(file)

    def remove_file(self, file):
        """Removes a file, which is not mapped. It goes with the next commit of all."""
        self._call("kefs_remove_file", file)

    def create_file(self, name, length=0):
        """Makes a file of zeros with this name, of an image with names, and returns its number. It comes with the next commit of all."""
        number = ctypes.c_uint()
        with self._lock:
            self._call("kefs_create_file", _name(name), length, ctypes.byref(number))
            self._resized.add(number.value)
            return number.value

    def lookup(self, name):
        """The number of the file with this name. NoFile: there is none."""
        number = ctypes.c_uint()
        self._call("kefs_lookup", _name(name), ctypes.byref(number))
        return number.value

    def rename(self, old, new):
        """Gives a file another name. A file that has that name is removed, in the same commit."""
        self._call("kefs_rename", _name(old), _name(new))

    def unlink(self, name):
        """Removes the file with this name, which is not mapped."""
        self._call("kefs_unlink", _name(name))

    def names(self):
        """The numbers of the files that have names, by their names."""
        with self._lock:
            found, files = {}, iter(range(1, _FILES))
            most = self.stat()["files"] - 1  # file 0 is that of the names
            while len(found) < most and (file := next(files, None)) is not None:
                if (name := self._name_at(file)) is not None:
                    found[name] = file
            return found

    def _name_at(self, file):
        name = ctypes.c_char_p()
        try:
            self._call("kefs_name_at", file, ctypes.byref(name))
        except NoFile:
            return None
        return os.fsdecode(name.value)

    def commit(self, *ranges):
        """Makes the dirty pages of these memoryviews durable, all at once, or all dirty pages where none is given. Returns how many."""
        with self._lock:
            count = self._counted("kefs_commit", ranges)
            if not ranges:
                self._resized.clear()
            return count

    def commit_start(self, *ranges):
        """Takes the dirty pages of these memoryviews, or all of them, as they are now: a Started, whose wait() returns when they are durable. All that threads have
        started meanwhile goes as one commit."""
        count, ticket = ctypes.c_size_t(), ctypes.c_uint64()
        self._call("kefs_commit_start", *_ranges(ranges), ctypes.byref(count), ctypes.byref(ticket))
        return Started(self, ticket.value, count.value)

    def _commit_wait(self, ticket):
        with self._lock:
            if self._handle is None:
                raise ValueError("the image is closed")
            at = self._handle.at
            self._waits += 1
        try:
            result = _library().kefs_commit_wait(at, ticket)
            message = "" if result in (0, Forked.result) else _library().kefs_errmsg(at).decode(errors="replace")
        finally:
            with self._idle:
                self._waits -= 1
                self._idle.notify_all()
        _check(result, message)

    def count_dirty(self, *ranges):
        """How many pages a commit of these ranges would take now."""
        return self._counted("kefs_count_dirty", ranges)

    def rollback(self, *ranges):
        """Brings the dirty pages of these ranges back to what is durable, and lengths, files and names with them. The memoryviews of files that were given another
        length, or are new, are released, and map() gives the next ones. BufferError: such a view is in use, as a slice; nothing was done."""
        with self._lock:
            files = [file for file in self._resized if file in self._mapped]
            array = _ranges(ranges)
            self._release(files)
            self._call("kefs_rollback", *array)
            for file in files:
                self._map_anew(file)
            if not ranges:
                self._resized.clear()

    def recover(self):
        """Recovery in place after Device was raised: BEFORE or AFTER, as the commit that failed is not durable or is. All views stay."""
        stands = ctypes.c_int()
        self._call("kefs_recover", ctypes.byref(stands))
        return stands.value

    def tidy(self):
        """Brings the pages of the image's pool home, so that the commits that follow write none home. Dirty pages stay dirty."""
        self._call("kefs_tidy")

    def refresh(self):
        """Of an image that was opened with SNAPSHOT: brings its views to what the newest commit has left, and says whether a byte of them may
        differ. No other thread may use them meanwhile. Where it raises they are as they were. The memoryview of a file that has another length now, or is gone, is
        released, and map() gives the next one; where a view of it is in use, it has its length still, and zeros past the file's end."""
        changed = ctypes.c_int()
        with self._lock:
            self._call("kefs_refresh", ctypes.byref(changed))
            for file in [file for file, mapped in self._mapped.items() if mapped.length != self._length_or_none(file)]:
                self._let_go(file)
        return bool(changed.value)

    def _length_or_none(self, file):
        try:
            return self.length(file)
        except NoFile:
            return None

    def _let_go(self, file):
        """Unmaps a file that has another length than its views, or zeros what they have more where they are in use."""
        mapped = self._mapped[file]
        try:
            self._release([file])
        except BufferError:
            mapped.zero_from(self._length_or_none(file) or 0)
            return
        del self._mapped[file]
        if mapped.at:
            self._call("kefs_unmap", file)

    def backup(self, path, permissions=0o600):
        """Makes an image at `path`, where nothing may be, that is as the last commit has left this one."""
        self._call("kefs_backup", os.fsencode(path), permissions)

    def mark_dirty(self, view):
        """Says that these bytes were or will be stored to."""
        self._call("kefs_mark_dirty", _address(view), view.nbytes)

    def touch(self, view):
        """Reads the pages of these bytes, so that a system call may touch them."""
        self._call("kefs_touch", _address(view), view.nbytes)

    @contextlib.contextmanager
    def transaction(self, *ranges):
        """Commits these ranges at its end, or all that was written; where an exception leaves it, or the commit is refused, rolls them back."""
        try:
            yield self
            self.commit(*ranges)
        except BaseException as error:
            if not isinstance(error, (Device, Halted, Forked)):
                self.rollback(*ranges)
            raise

    def stat(self):
        """Facts of the image, as a dictionary with the names of struct kefs_stat."""
        facts = _Stat(size=ctypes.sizeof(_Stat))
        self._call("kefs_stat", ctypes.byref(facts))
        found = {name: getattr(facts, name) for name, _ in _Stat._fields_[1:]}
        return {**found, "tracker": facts.tracker.decode(), "lazy": bool(facts.lazy)}

    def close(self):
        """Lets the image go, when no thread waits for a commit and what was started is durable. What was not committed is lost. It may come again. BufferError: a view that was made of a memoryview of map()
        is in use, as a slice or an array; the image stays open then."""
        with self._idle:
            self._idle.wait_for(lambda: self._waits == 0)
            if self._handle is None:
                return
            self._release(list(self._mapped))
            self._mapped.clear()
            handle, self._handle = self._handle, None
            _check(handle.close())

    def _counted(self, name, ranges):
        count = ctypes.c_size_t()
        self._call(name, *_ranges(ranges), ctypes.byref(count))
        return count.value

    def __enter__(self):
        return self

    def __exit__(self, *_):
        self.close()


class Started:
    """A commit that commit_start() began, of `pages` pages. wait() may come again, and from any thread."""

    def __init__(self, image, ticket, pages):
        self._image, self._ticket, self.pages = image, ticket, pages

    def wait(self):
        """Returns when it is durable, and all that was started before it."""
        self._image._commit_wait(self._ticket)


def _name(name):
    """A name as the library takes it: bytes, of which none is zero."""
    encoded = os.fsencode(name)
    if b"\0" in encoded:
        raise ValueError("a name has no zero byte")
    return encoded


class _Buffer(ctypes.Structure):
    """Python's Py_buffer, which says where the bytes of a view lie, of a read-only one too."""

    _fields_ = [("buf", ctypes.c_void_p), ("obj", ctypes.py_object), ("len", ctypes.c_ssize_t), ("itemsize", ctypes.c_ssize_t)] + [
        (name, ctypes.c_int) for name in ("readonly", "ndim")
    ] + [(name, ctypes.c_void_p) for name in ("format", "shape", "strides", "suboffsets", "internal")]


def _address(view):
    """Where the bytes of a mapped file, or of a part of it, lie."""
    buffer = _Buffer()
    ctypes.pythonapi.PyObject_GetBuffer(ctypes.py_object(view), ctypes.byref(buffer), 0)
    try:
        return buffer.buf
    finally:
        ctypes.pythonapi.PyBuffer_Release(ctypes.byref(buffer))


def _ranges(views):
    """The array and the count that the calls take."""
    array = (_Range * len(views))(*[_Range(_address(view), view.nbytes) for view in views])
    return (array, len(views)) if views else (None, 0)


def open(path, flags=0, wait=0, create=None, permissions=0o600, pool=0, names=False, places=0):
    """Opens an image: kefs.RDONLY or kefs.SNAPSHOT, kefs.NOWAIT, kefs.LAZY and a tracker are the flags. Another opening of it is waited for, at most
    `wait` milliseconds where that is not 0; with SNAPSHOT only the commit that is under way, and by each refresh() too. `create` is the files of the
    image, as of format(), that is made where nothing is at the path, `pool` how many slots its pool has, 4,032 where it is 0, and `places` how many files
    its directory has places for, up to 4,096, 64 where it is 0. With `names` one is made whose files have names, and that has no file yet. Use it in
    a `with`."""
    return Image(path, flags, wait, create, permissions, pool, names, places)
