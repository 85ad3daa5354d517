"""calls.py FILE SEED COUNT [synced|killed]: makes random calls on a file and prints what each of them gave. What it prints has to be the same
under kefsrun as without. synced: the file as the last sync left it is FILE.synced; killed: it ends by a kill, after which that is durable under kefsrun."""
import mmap
import os
import random
import shutil
import signal
import sys

MOST = 1 << 16  # bytes of the file
path, rng = sys.argv[1], random.Random(int(sys.argv[2]))
fd = os.open(path, os.O_RDWR | os.O_CREAT, 0o644)
os.ftruncate(fd, MOST)
mapped = mmap.mmap(fd, MOST)
other = os.dup(fd)  # it has one place with fd
folder = os.open("/", os.O_RDONLY)


def some():
    """Bytes to write."""
    return rng.randbytes(rng.choice((0, 1, 7, 512, 4096, 5000)))


def place():
    """A place in the first three quarters."""
    return rng.randrange(3 * MOST // 4)


def stored():
    """Stores to the mapping, below the file's end, where a file's own mapping has bytes."""
    length = os.fstat(fd).st_size
    data = some()[:length]
    at = rng.randrange(length - len(data) + 1)
    mapped[at:at + len(data)] = data
    return at


def gathered(call, *words):
    """What a read into two places gave."""
    parts = [bytearray(9), bytearray(600)]
    return call(fd, parts, *words), b"".join(parts)


def appended():
    """Writes at the end, through a descriptor whose place is elsewhere."""
    if os.fstat(fd).st_size > MOST // 2:
        return 0
    with open(path, "ab", buffering=0) as end:
        end.seek(0)
        return end.write(some()), end.tell()


def grown():
    """A mapping of one page that grows, what is stored behind its first end, and that it is in the file."""
    if os.fstat(fd).st_size < 8192:
        return 0
    with mmap.mmap(fd, 4096) as small:
        small.resize(8192)
        small[8000:8004] = rng.randbytes(4)
    return os.pread(fd, 8, 7998)


def reopened():
    """Another descriptor, at times one that cuts the file off."""
    other = os.open(path, os.O_RDWR | (os.O_TRUNC if rng.random() < 0.2 else 0))
    length = os.lseek(other, 0, os.SEEK_END)
    os.close(other)
    return length


def synced(call, *words):
    """What a sync gave."""
    call(*words)
    if sys.argv[4:] == ["synced"]:
        shutil.copyfile(path, f"{path}.synced")


CALLS = (
    lambda: os.pwrite(fd, some(), place()),
    lambda: os.pread(fd, rng.randrange(5000), place()),
    lambda: os.write(fd, some()) if os.lseek(fd, 0, os.SEEK_CUR) < MOST // 2 else 0,
    lambda: os.read(fd, rng.randrange(5000)),
    lambda: os.pwritev(fd, [some(), some()], place()),
    lambda: gathered(os.preadv, place()),
    lambda: gathered(os.readv),
    lambda: os.lseek(fd, place(), os.SEEK_SET),
    lambda: os.lseek(fd, -min(9, os.fstat(fd).st_size), os.SEEK_END),
    lambda: os.ftruncate(fd, place()),
    lambda: (os.stat(path).st_size, os.lstat(path).st_size, os.fstat(fd).st_size),
    lambda: synced(os.fsync, fd),
    lambda: synced(os.fdatasync, fd),
    lambda: synced(mapped.flush),
    stored,
    reopened,
    appended,
    grown,
    lambda: os.write(other, some()) if os.lseek(other, 0, os.SEEK_CUR) < MOST // 2 else 0,
    lambda: os.posix_fallocate(fd, place(), 1 + rng.randrange(5000)),
    lambda: os.truncate(path, place()),
    lambda: (os.stat(path, dir_fd=folder).st_size, os.path.getsize(path)),
)
for number in range(int(sys.argv[3])):
    k = rng.randrange(len(CALLS))
    given = CALLS[k]()
    print(number, k, given.hex() if isinstance(given, bytes) else given)
print(os.pread(fd, MOST, 0).hex(), flush=True)
if sys.argv[4:] == ["killed"]:
    os.kill(os.getpid(), signal.SIGKILL)
