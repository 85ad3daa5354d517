"""growing.py LIBRARY CHANGES [control|zeros]: lists the plans of random changes of files on an image of layout 4: files get other lengths, come and go, with
pages of theirs, and new ones that are left out become zeros. Stops each plan before each of its calls and at its end, as stops.py does, and reads the files of what
is left by code of its own. They have to be those before or after, lengths included, and at the end those after. As a control the first sync of each plan is left
out, or its calls of zeros, and then some have to be bad."""
import ctypes as c, random, sys
from images import new_pool_image, standing_homes

ROOM, PAGE, SPARE, DIRECTORY = 16384, 4096, 60, 5
FILES = (0, 1, 2, 3, 15, 16, 63, 64, 79)  # by their numbers, of the 80 that such a directory has places for
WRITE, SYNC, LENT, COPY, ZERO = 1, 2, 3, 4, 5
BAD_PAGES, READ_ONLY, NO_HOMES = 4, 5, 9


class Call(c.Structure):
    _fields_ = [("kind", c.c_uint64), ("sector", c.c_uint64), ("from_", c.c_uint64)]


class Plan(c.Structure):
    _fields_ = [("calls", Call * ROOM), ("rows", (c.c_ubyte * 512) * ROOM)]


class Page(c.Structure):
    _fields_ = [("file", c.c_uint16), ("page", c.c_uint32)]


class Size(c.Structure):
    _fields_ = [("file", c.c_uint32), ("is_there", c.c_uint32), ("length", c.c_uint64)]


class Bytes(c.Structure):
    _fields_ = [("at", c.c_void_p)]


library, scratch, plan = c.CDLL(sys.argv[1]), Plan(), Plan()


def number(at, i):
    return int.from_bytes(at[4 * i : 4 * i + 4], "little")


def pages_of(length):
    return (length + PAGE - 1) // PAGE


def files_of(image):
    """The files of an image, by their numbers, as docs/FORMATS.md has them."""
    homes, files = standing_homes(image), {}
    for f in range(16 * DIRECTORY):
        entry = homes[256 * f : 256 * f + 256]
        if not number(entry, 0) & 1:
            continue
        extents = [(number(entry, 4 + 2 * i), number(entry, 5 + 2 * i)) for i in range(number(entry, 1))]
        whole = b"".join(homes[PAGE * first : PAGE * (first + count)] for first, count in extents)
        files[f] = whole[: number(entry, 2)]
        assert len(files[f]) == number(entry, 2), f"file {f} has fewer homes than its length has pages"
    return files


def bytes_of(k, image, data):
    """The bytes that call k of the plan writes, from where it says that they lie."""
    call, at = plan.calls[k], 512 * plan.calls[k].from_
    if call.kind == ZERO:
        return bytes(PAGE * call.from_)
    return bytes(plan.rows[k]) if call.kind == WRITE else data[call.from_] if call.kind == LENT else image[at : at + PAGE]


def asked(name, state, image, data=(), *rest):
    """The answer and the calls of the plan: sector and bytes of each, or None of a sync."""
    lent, handle, used = (c.c_ubyte * len(image)).from_buffer_copy(image), c.c_uint32(state), c.c_size_t(0)
    room = c.c_size_t(ROOM)
    answer = getattr(library, name)(c.byref(handle), lent, c.c_size_t(len(image) // 512), scratch.calls, room, scratch.rows, room, c.byref(used),
                                    plan.calls, room, plan.rows, room, *rest)
    assert bytes(lent) == image, "the image was written"
    assert handle.value == (state if answer else 2), "the handle"
    kinds.extend(plan.calls[k].kind for k in range(used.value))
    listed = [k for k in range(used.value) if control != "zeros" or plan.calls[k].kind != ZERO]
    return answer, [(None, b"") if plan.calls[k].kind == SYNC else (plan.calls[k].sector, bytes_of(k, image, data)) for k in listed]


def without_first_sync(calls):
    first = next(k for k, (sector, _) in enumerate(calls) if sector is None)
    return calls[:first] + calls[first + 1 :]


def resized(image, sizes, fresh, pages, data):
    kept = [c.create_string_buffer(d, PAGE) for d in data]
    return asked("famsync_resize", 1, image, data, (Size * len(sizes))(*[Size(f, n is not None, n or 0) for f, n in sizes]), c.c_size_t(len(sizes)),
                 (Page * len(fresh))(*[Page(f, k) for f, k in fresh]), c.c_size_t(len(fresh)),
                 (Page * len(pages))(*[Page(f, k) for f, k in pages]), c.c_size_t(len(pages)),
                 (Bytes * len(data))(*[Bytes(c.addressof(b)) for b in kept]), c.c_size_t(len(data)))


def carried_out(image, calls):
    image = bytearray(image)
    for sector, written in calls:
        if sector is not None:
            image[512 * sector : 512 * sector + len(written)] = written
    return bytes(image)


def found(image):
    answer, calls = asked("famsync_open", 0, image)
    return None if answer else files_of(carried_out(image, calls))


def torn(pending, synced):
    left = bytearray(synced)
    for sector, rows in pending.items():
        at, row, chance = 512 * sector, random.choice(rows), random.random()
        cut = 512 if chance < 0.4 else random.randrange(512) if chance < 0.6 else 0
        left[at : at + cut] = row[:cut]
        if chance > 0.8:
            left[at : at + 512] = random.randbytes(512)
    return bytes(left)


def stops(image, calls, before, after):
    synced, pending, bad, tried = bytearray(image), {}, 0, 0
    for k in range(len(calls) + 1):
        bad, tried = bad + (found(torn(pending, synced)) not in ((after,) if k == len(calls) else (before, after))), tried + 1
        sector, written = calls[k] if k < len(calls) else (0, b"")
        for at in range(0, len(written), 512):
            pending.setdefault(sector + at // 512, []).append(written[at : at + 512])
        if sector is None:
            synced, pending = carried_out(synced, [(s, rows[-1]) for s, rows in pending.items()]), {}
    return bad + (pending != {}), tried


def wanted(files):
    """Sizes, pages that are written too, new ones that are listed, and what the files are then, the others zeros."""
    sizes, after = [], dict(files)
    for f in sorted(random.sample(FILES, random.randint(0, 3))):
        length = None if random.random() < 0.15 else random.choice([0, 1, PAGE, 5000, 3 * PAGE, random.randrange(70000)])
        sizes.append((f, length))
        if length is None:
            after.pop(f, None)
        else:
            after[f] = files.get(f, b"")[:length].ljust(length, b"\0")
    both = [(f, k) for f in sorted(files) if f in after for k in range(min(pages_of(len(files[f])), pages_of(len(after[f]))))]
    ends = [(f, len(files[f]) // PAGE) for f, n in sizes if f in files and n is not None and n > len(files[f]) and len(files[f]) % PAGE]
    pages = sorted({*random.sample(both, random.randint(0, min(5, len(both)))), *ends})
    new = [(f, k) for f, n in sizes for k in range(pages_of(len(files.get(f, b""))), pages_of(n or 0))]
    fresh = sorted(random.sample(new, random.choice([len(new), len(new), random.randint(0, len(new)), 0])))
    return sizes, pages, fresh, after


def put(after, written):
    """The files with these pages, each as long as before."""
    for (f, k), content in written:
        length = len(after[f])
        after[f] = (after[f][: PAGE * k] + content + after[f][PAGE * (k + 1) :])[:length]
    return after


random.seed(2)
kinds, bad, tried, refused, control = [], 0, 0, 0, sys.argv[3] if sys.argv[3:] else ""
image = new_pool_image([20000, 9000, 1], blocks=1, directory=DIRECTORY) + random.randbytes(PAGE * SPARE)
for _ in range(int(sys.argv[2])):
    files = files_of(image)
    sizes, pages, fresh, after = wanted(files)
    data = [random.randbytes(PAGE) for _ in [*fresh, *pages]]
    answer, calls = resized(image, sizes, fresh, pages, data)
    if answer == NO_HOMES:
        refused += 1
        continue
    assert answer == 0, (answer, sizes, pages)
    following, calls = carried_out(image, calls), without_first_sync(calls) if control == "control" else calls
    wrong, more = stops(image, calls, files, put(after, zip([*fresh, *pages], data)))
    bad, tried, image = bad + wrong, tried + more, following
assert {*kinds} >= {WRITE, SYNC, LENT, ZERO}, f"calls of the kinds {kinds} alone"
print(f"growing: {tried} stops in {sys.argv[2]} changes of files, {refused} of them without homes: {bad} bad" + (control != "") * ", as a control has to find")
sys.exit((bad > 0) != (control != ""))
