"""Random lines of a trace: mostly sensible calls on a few pages of a few processes, and some that no program should send."""
BASE = 0x10000
PAGE = 4096
WIDTHS = (1, 2, 4, 8)
PROTS = ("rw-", "rw-", "rw-", "r--", "rwx", "-w-", "--x", "---", "r-x")
# none of these is the length of a mapping of many pages, since the model has each page by itself
HOSTILE = (0, 1, 4095, 4097, 0xFFFF, 1 << 38, 1 << 39, (1 << 64) - 4096, (1 << 64) - 1, 1 << 64)
LENGTHS = (0, 1, 4095, 4096, 4097, 1 << 42, (1 << 42) + 1, (1 << 64) - 1, 1 << 64)  # of files
BAD = ("", " ", "spawn ", " spawn", "exit", "exit x", "load 1 0x 1", "load 1 0X10 1", "store 1 65536 3 0", "mmap 1 0 1 wr- anon", "faults 1",
       "mmap 1 0 1 rw- anon fixed noreplace", "msync 1 0 0", "load 1  65536 1", "store 1 65536 1 256", "spawn\r", "x" * 300, "fetch 1 65536\t",
       "truncate 0", "truncate 0 -1")


def address(rng, pages):
    if rng.random() < 0.02:
        return rng.choice(HOSTILE)
    # most pages are neighbours; some lie below another table
    page = rng.randrange(pages) + rng.choice((0,) * 12 + (512 - pages // 2, 1 << 18))
    return BASE + PAGE * page


def length(rng):
    return rng.choice(HOSTILE) if rng.random() < 0.02 else PAGE * rng.randrange(1, 9) - rng.choice((0, 0, 0, 1, 4095))


def mapping(rng, pid, pages, files):
    kind = rng.choice(("anon", "anon", "common", "shared", "shared", "shared", "private"))
    behind = "" if kind in ("anon", "common") else f" {rng.randrange(files + (rng.random() < 0.05))} {PAGE * rng.randrange(6)}"
    addr = rng.choice((0, address(rng, pages)))
    mode = rng.choice(("", "", " fixed", " noreplace")) if addr else ""
    return f"mmap {pid} {addr:#x} {length(rng)} {rng.choice(PROTS)} {kind}{behind}{mode}"


def access(rng, pid, pages):
    kind = rng.choices(("load", "store", "fetch"), (10, 12, 1))[0]
    width = 4 if kind == "fetch" else rng.choice(WIDTHS)
    # most bytes are the first ones of a page, so that a load finds what another process has stored
    addr = address(rng, pages) + rng.randrange(0, rng.choice((16, 16, 16, PAGE)), width) + (rng.random() < 0.01)
    return {
        "load": f"load {pid} {addr:#x} {width}",
        "store": f"store {pid} {addr} {width} {rng.randrange(1 << 8 * width):#x}",
        "fetch": f"fetch {pid} {addr:#x}",
    }[kind]


def resizing(rng, files):
    size = rng.choice(LENGTHS) if rng.random() < 0.05 else PAGE * rng.randrange(12) - rng.choice((0, 0, 1, 4095, rng.randrange(PAGE)))
    return f"truncate {rng.randrange(files + (rng.random() < 0.05))} {max(0, size)}"


def line(rng, pages, files, processes, truncates=0):
    """One line, a truncate with that weight beside those of the other commands."""
    pid = rng.randrange(1, processes + 1 + rng.randrange(3)) if rng.random() < 0.99 else rng.choice((0, 64, 65, 1 << 32))
    kind = rng.choices(
        ("access", "mmap", "munmap", "mprotect", "dontneed", "msync", "spawn", "fork", "exit", "faults", "bad", "truncate"),
        (60, 8, 1, 3, 3, 8, 3, 2, 3, 1, 1, truncates),
    )[0]
    where = f"{pid} {address(rng, pages):#x} {length(rng)}"
    return {
        "access": lambda: access(rng, pid, pages),
        "mmap": lambda: mapping(rng, pid, pages, files),
        "munmap": lambda: f"munmap {where}",
        "mprotect": lambda: f"mprotect {where} {rng.choice(PROTS)}",
        "dontneed": lambda: f"dontneed {where}",
        "msync": lambda: f"msync {pid} {address(rng, pages):#x} {PAGE * rng.randrange(1, 4)} {'async' if rng.random() < 0.1 else 'sync'}",
        "spawn": lambda: "spawn",
        "fork": lambda: f"fork {pid}",
        "exit": lambda: f"exit {pid}",
        "faults": lambda: "faults",
        "bad": lambda: rng.choice(BAD),
        "truncate": lambda: resizing(rng, files),
    }[kind]()


def trace(rng, count, files, truncates=0):
    """So many lines; the first ones make processes, of which some share common pages with the first, and map each file."""
    processes, pages = rng.randrange(1, 9), rng.choice((4, 12, 24, 48))
    lines = ["spawn", f"mmap 1 0 {rng.randrange(1, 5) * PAGE} rw- common", *rng.choices(("spawn", "fork 1"), k=processes - 1)]
    for pid in range(1, processes + 1):
        lines += [f"mmap {pid} 0 {rng.randrange(1, 7) * PAGE} rw- {rng.choice(('shared', 'private'))} {file} 0" for file in range(files)]
        lines.append(f"mmap {pid} 0 {pages * PAGE} rw- anon")
    lines += [line(rng, pages, files, processes, truncates) for _ in range(count)]
    return "".join(text + "\n" for text in lines).encode()
