"""stops.py LIBRARY COMMITS [LAYOUT]: lists the plans of random commits on an image of layout 4, or of LAYOUT, stops
each plan before each of its calls and at its end, with the unsynced sectors as they were, as they became, torn in their midst or of any
bytes, and opens what is left. It has to stand for the files before or after, and at the end for those after."""
import ctypes as c, random, sys
from images import LAYOUTS, new_image, new_pool_image, standing_homes
ROOM, LENGTHS, LAYOUT = 16384, [20000, 9000, 1], int(sys.argv[3]) if len(sys.argv) > 3 else 4
WRITE, SYNC, LENT, COPY = 1, 2, 3, 4


class Call(c.Structure):
    _fields_ = [("kind", c.c_uint64), ("sector", c.c_uint64), ("from_", c.c_uint64)]


class Plan(c.Structure):
    _fields_ = [("calls", Call * ROOM), ("rows", (c.c_ubyte * 512) * ROOM)]


class Page(c.Structure):
    _fields_ = [("file", c.c_uint16), ("page", c.c_uint32)]


class Bytes(c.Structure):
    _fields_ = [("at", c.c_void_p)]


library, scratch, plan = c.CDLL(sys.argv[1]), Plan(), Plan()


def carried_out(image, calls):
    image = bytearray(image)
    for sector, bytes in calls:
        if sector is not None:
            image[512 * sector : 512 * sector + len(bytes)] = bytes
    return image


def bytes_of(k, image, data):
    """The bytes that call k of the plan writes, from where it says that they lie."""
    call, at = plan.calls[k], 512 * plan.calls[k].from_
    return bytes(plan.rows[k]) if call.kind == WRITE else data[call.from_] if call.kind == LENT else image[at : at + 4096]


def asked(name, state, image, data=(), *rest):
    """The answer and the calls of the plan: sector and bytes of each, or None of a sync."""
    lent, handle, used = (c.c_ubyte * len(image)).from_buffer_copy(image), c.c_uint32(state), c.c_size_t(0)
    room = c.c_size_t(ROOM)
    answer = getattr(library, name)(c.byref(handle), lent, c.c_size_t(len(image) // 512), scratch.calls, room, scratch.rows, room, c.byref(used),
                                    plan.calls, room, plan.rows, room, *rest)
    assert bytes(lent) == image, "the image was written"
    assert all(WRITE <= plan.calls[k].kind <= COPY for k in range(used.value)), "a call of no kind"
    kinds.update(plan.calls[k].kind for k in range(used.value))
    return answer, [(None, b"") if plan.calls[k].kind == SYNC else (plan.calls[k].sector, bytes_of(k, image, data)) for k in range(used.value)]


def homes(image):
    answer, calls = asked("famsync_open", 0, image)
    if answer != 0:
        return None
    left = carried_out(image, calls)
    return standing_homes(bytes(left)) if LAYOUT == 4 else left[512 * LAYOUTS[LAYOUT].homes :]


def committed(image, pages, data):
    count = len(pages)
    kept = [c.create_string_buffer(d, 4096) for d in data]
    return asked("famsync_commit", 1, image, data, (Page * count)(*[Page(f, k) for f, k in pages]), c.c_size_t(count),
                 (Bytes * count)(*[Bytes(c.addressof(b)) for b in kept]), c.c_size_t(count))


def torn(pending, synced):
    left = bytearray(synced)
    for sector, rows in pending.items():
        at, row, chance = 512 * sector, random.choice(rows), random.random()
        cut = 512 if chance < 0.4 else random.randrange(512) if chance < 0.6 else 0
        left[at : at + cut] = row[:cut]
        if chance > 0.8:
            left[at : at + 512] = random.randbytes(512)
    return bytes(left)


def stops(image, calls, before, after):
    synced, pending, bad, tried = bytearray(image), {}, 0, 0
    for k in range(len(calls) + 1):
        for _ in range(2):
            found, tried = homes(torn(pending, synced)), tried + 1
            bad += found not in ((after,) if k == len(calls) else (before, after))
        sector, written = calls[k] if k < len(calls) else (0, b"")
        for at in range(0, len(written), 512):
            pending.setdefault(sector + at // 512, []).append(written[at : at + 512])
        if sector is None:
            synced, pending = carried_out(synced, [(s, rows[-1]) for s, rows in pending.items()]), {}
    return bad + (pending != {}), tried


random.seed(1)
kinds = set()
image = new_pool_image(LENGTHS, blocks=1) if LAYOUT == 4 else new_image(LENGTHS, layout=LAYOUT)
bad, tried, places = 0, 0, [(f, k) for f, n in enumerate(LENGTHS) for k in range((n + 4095) // 4096)]
for _ in range(int(sys.argv[2])):
    pages = random.sample(places, random.randint(1, len(places)))
    answer, calls = committed(image, pages, [random.randbytes(4096) for _ in pages])
    assert answer == 0, answer
    following = bytes(carried_out(image, calls))
    wrong, more = stops(image, calls, homes(image), homes(following))
    bad, tried, image = bad + wrong, tried + more, following
# A plan may write a home by its sectors or by a copy.
assert kinds >= {WRITE, SYNC, LENT}, f"calls of the kinds {kinds} alone"
print(f"stops {tried} in {sys.argv[2]} commits of layout {LAYOUT}: {bad} bad")
sys.exit(bad > 0)
