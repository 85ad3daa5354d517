"""names.py FILE SEED COUNT: makes random calls on a file, on two others beside it, and on their names, and prints what each of them gave. What it prints has to be
the same under kefsrun, whose data file FILE is, as without."""
import ctypes
import mmap
import os
import random
import sys

MOST = 1 << 15  # bytes of a file, about
path, rng = sys.argv[1], random.Random(int(sys.argv[2]))
names = [path, f"{path}.other", f"{path}.third"]
files, maps = [], []  # descriptors, and mappings with theirs
libc = ctypes.CDLL(None, use_errno=True)


def some():
    """Bytes to write."""
    return rng.randbytes(rng.choice((1, 7, 512, 4096, 9000)))


def one():
    """A descriptor, or a call that fails as one that is closed does."""
    return rng.choice(files) if files else 9999


def opened():
    """Another descriptor."""
    flags = rng.choice((0, 0, os.O_CREAT, os.O_CREAT, os.O_CREAT | os.O_EXCL, os.O_CREAT | os.O_TRUNC, os.O_TRUNC, os.O_APPEND))
    fd = os.open(rng.choice(names), os.O_RDWR | flags, 0o644)
    if len(files) > 6:
        os.close(files.pop(0))
    files.append(fd)
    return fstat(fd)


def closed():
    """One descriptor less."""
    fd = files.pop(rng.randrange(len(files))) if files else 9999
    os.close(fd)


def fstat(fd):
    """Facts of a descriptor, and which names lead to the same file."""
    facts = os.fstat(fd)
    return facts.st_size, facts.st_nlink, [os.path.exists(name) and os.path.samestat(os.stat(name), facts) for name in names]


def mapped():
    """A mapping of all of a file."""
    fd = one()
    length = os.fstat(fd).st_size
    if len(maps) > 3:
        maps.pop(0)[0].close()
    maps.append((mmap.mmap(fd, length), os.dup(fd)))
    return length


def stored():
    """Stores to a mapping, and reads from it, where its file has bytes still."""
    memory, fd = rng.choice(maps) if maps else (b"", 9999)
    length = min(len(memory), os.fstat(fd).st_size)
    data = some()[:length]
    at = rng.randrange(length - len(data) + 1)
    before = bytes(memory[at:at + len(data)])
    memory[at:at + len(data)] = data
    return before, os.pread(fd, 20, at)


def unmapped():
    """One mapping less."""
    memory, fd = maps.pop(rng.randrange(len(maps))) if maps else (None, 9999)
    os.close(fd)
    memory.close()


def renamed(flags=0):
    """A name that becomes another one."""
    old, new = rng.choice(names), rng.choice(names)
    if libc.renameat2(-100, old.encode(), -100, new.encode(), flags) != 0:
        raise OSError(ctypes.get_errno(), "")


def listed():
    """What there is, and how long it is."""
    return [(os.path.exists(name), os.access(name, os.R_OK), os.path.exists(name) and os.stat(name).st_size) for name in names]


def written():
    """A file that is written anew by another name, and gets the first one."""
    fd = os.open(names[1], os.O_RDWR | os.O_CREAT | os.O_TRUNC, 0o600)
    os.write(fd, some())
    os.fsync(fd)
    if rng.random() < 0.5:
        os.close(fd)
        fd = -1
    os.rename(names[1], names[0])
    if fd >= 0:
        files.append(fd)


def streamed():
    """The same by a stream of Python's, which is closed late."""
    with open(names[2], "wb") as file:
        file.write(some())
        file.flush()
        os.replace(names[2], names[0])
        file.write(b"at the end")


CALLS = (
    opened, opened, opened, closed, mapped, stored, stored, unmapped, renamed, renamed, listed, written, streamed,
    lambda: renamed(1),
    lambda: os.unlink(names[0]),
    lambda: os.unlink(rng.choice(names)),
    lambda: os.remove(names[0]),
    lambda: fstat(one()),
    lambda: os.pwrite(one(), some(), rng.randrange(MOST)),
    lambda: os.pread(one(), rng.randrange(5000), rng.randrange(MOST)),
    lambda: os.write(one(), some()),
    lambda: os.read(one(), rng.randrange(5000)),
    lambda: os.lseek(one(), rng.randrange(MOST), os.SEEK_SET),
    lambda: os.lseek(one(), 0, os.SEEK_END),
    lambda: os.ftruncate(one(), rng.randrange(MOST)),
    lambda: os.truncate(names[0], rng.randrange(MOST)),
    lambda: os.fsync(one()),
    lambda: files.append(os.dup(one())),
)


def tried(call):
    """What a call gave, or how it failed."""
    try:
        given = call()
    except (OSError, ValueError) as error:
        return type(error).__name__, getattr(error, "errno", None)
    return given


def content(name):
    """The bytes of a file."""
    if not os.path.exists(name):
        return None
    with open(name, "rb") as file:
        return file.read().hex()


for number in range(int(sys.argv[3])):
    k = rng.randrange(len(CALLS))
    print(number, getattr(CALLS[k], "__name__", k), k, tried(CALLS[k]), flush=True)
for memory, fd in maps:
    print(bytes(memory[:os.fstat(fd).st_size]).hex(), fstat(fd))
for fd in files:
    print(fstat(fd), os.pread(fd, MOST, 0).hex())
for name in names:
    print(content(name))
