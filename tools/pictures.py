"""Pictures as SVG, rectangles and words on a white ground: those that the documents show, and a map of stops as text. tools/stopmap and bench/run write them."""
import math
import re
from itertools import groupby
from typing import NamedTuple
from xml.sax.saxutils import escape

INK, PALE = "#222222", "#999999"
# Of stops: what is left of a file after no msync, after one, two ..; and of a bad one.
LEFT, BAD = ("#d9d9d9", "#5b9bd5", "#70ad47", "#ffc000", "#a678de"), "#e03030"
FILLINGS = ("old bytes", "zeros", "ones", "half a gate", "a whole gate")
BAR = "#5b9bd5"
# Of lines of several programs or processes; the color-blind tell them apart too, and marks or dashes stand beside.
LINES = ("#164a9c", "#a04a00", "#09805f", "#bf1994", "#787325", "#1c525d")
MARKS = ("m-4 0 a4 4 0 1 0 8 0 a4 4 0 1 0 -8 0", "m-4 -4 h8 v8 h-8 z", "m0 -5 l5 9 h-10 z", "m0 -5 l5 5 l-5 5 l-5 -5 z")


class Picture:
    """A picture of so many pixels."""

    def __init__(self, width, height):
        self.width, self.height, self.parts = width, height, []

    def box(self, x, y, width, height, color):
        self.parts.append(f'<rect x="{x:g}" y="{y:g}" width="{width:g}" height="{height:g}" fill="{color}"/>')

    def word(self, x, y, text, anchor="start", size=12, color=INK, turned=False):
        """Words whose base line is at y; turned ones are read upwards."""
        turn = f' transform="rotate(-90 {x:g} {y:g})"' if turned else ""
        self.parts.append(f'<text x="{x:g}" y="{y:g}" text-anchor="{anchor}" font-size="{size}" fill="{color}"{turn}>{escape(text)}</text>')

    def line(self, points, color, dashes=""):
        """A line from point to point."""
        through = " ".join(f"{x:.1f},{y:.1f}" for x, y in points)
        dash = f' stroke-dasharray="{dashes}"' if dashes else ""
        self.parts.append(f'<polyline points="{through}" fill="none" stroke="{color}" stroke-width="2"{dash}/>')

    def mark(self, x, y, row):
        """A mark of a line: a circle, a square, a triangle or a diamond."""
        self.parts.append(f'<path d="M{x:.1f} {y:.1f} {MARKS[row % len(MARKS)]}" fill="{LINES[row % len(LINES)]}"/>')

    def text(self):
        head = f'<svg xmlns="http://www.w3.org/2000/svg" width="{self.width}" height="{self.height}" viewBox="0 0 {self.width} {self.height}" font-family="sans-serif">'
        return "\n".join([head, f'<rect width="{self.width}" height="{self.height}" fill="white"/>', *self.parts, "</svg>", ""])


class Stop(NamedTuple):
    """A line of pagestops: the event, the part or sync that it was, how many msyncs were acknowledged, and what each filling left."""

    event: int
    part: str
    acknowledged: int
    left: tuple


STOP = re.compile(r"stop (\d+) (\w+) acknowledged (\d+) left ([-\d ]+?)(?: BAD)?")
PARTS = "body: the new pages, written aside; map: where they belong; gate: the sector that makes them count; home: a page's place in the file"


def stops_of(lines):
    """The stops of what pagestops has printed; ValueError where a line is none of its lines."""
    found = []
    for line in lines:
        match = STOP.fullmatch(line)
        if match and len(match[4].split()) == len(FILLINGS):
            found.append(Stop(int(match[1]), match[2], int(match[3]), tuple(match[4].split())))
        elif not re.fullmatch(r"stops \d+ recoveries \d+ bad \d+", line):
            raise ValueError(f"no line of pagestops: {line}")
    if not found:
        raise ValueError("no stop")
    return found


def stop_map(stops):
    """A column for each stop, a row for each filling, and a color for what is left."""
    cell, gap, left, top = 22, 2, 150, 92
    bottom = top + cell * len(FILLINGS)
    picture = Picture(max(left + cell * len(stops) + 20, 620), bottom + 108)
    picture.word(10, 22, "Power is cut at every write and sync: after how many msyncs does the file stand?", size=15)
    picture.word(10, 42, "One column for each event, left to right in time. One row for each filling of the sectors that were not synced.", color=PALE)
    for row, filling in enumerate(FILLINGS):
        picture.word(left - 8, top + cell * row + 15, filling, anchor="end")
    for column, stop in enumerate(stops):
        x = left + cell * column
        for row, number in enumerate(stop.left):
            is_bad = number == "-"
            picture.box(x, top + cell * row, cell - gap, cell - gap, BAD if is_bad else LEFT[int(number) % len(LEFT)])
            picture.word(x + (cell - gap) / 2, top + cell * row + 14, number, anchor="middle", size=11)
    parts(picture, stops, left, cell, bottom)
    acknowledged(picture, stops, left, cell, top)
    seen = sorted({number for stop in stops for number in stop.left} - {"-"}, key=int)
    for place, number in enumerate(seen):
        picture.box(left + 120 * place, bottom + 78, 14, 14, LEFT[int(number) % len(LEFT)])
        picture.word(left + 120 * place + 20, bottom + 90, f"after {number} msync{'' if number == '1' else 's'}")
    torn = sum("-" in stop.left for stop in stops)
    picture.word(left + 120 * len(seen), bottom + 90, f"torn: {torn}", color=BAD if torn else INK)
    return picture.text()


def parts(picture, stops, left, cell, bottom):
    """Names what was to be written, under the columns of one part."""
    column = 0
    for part, row in groupby(stops, key=lambda it: it.part):
        count = len(list(row))
        x, width = left + cell * column, cell * count - 2
        picture.box(x, bottom + 3, width, 2, INK)
        if count > 2:
            picture.word(x + width / 2, bottom + 20, f"{part}, {count} sectors", anchor="middle")
        else:
            picture.word(x + width / 2 + 4, bottom + 12, part, anchor="end", turned=True)
        column += count


def acknowledged(picture, stops, left, cell, top):
    """Says over the columns how many msyncs had returned ok."""
    column = 0
    for number, row in groupby(stops, key=lambda it: it.acknowledged):
        count = len(list(row))
        x, width = left + cell * column, cell * count - 2
        picture.box(x, top - 8, width, 2, INK)
        picture.word(x + width / 2, top - 14, f"{number} acknowledged" if count > 4 else str(number), anchor="middle")
        column += count


# Of two maps side by side: a sector of a page, and a gate or a sync.
NARROW, WIDE, HIGH = 9, 22, 22


def two_maps(stops, slots):
    """The same msyncs in layout 2 and in layout 4."""
    maps = [(f"{name}, {sum(it.part == 'sync' for it in row) - 1} syncs", row)
            for name, row in (("layout 2: a journal", stops), ("layout 4: a pool of slots", slots))]
    return side_by_side("Two msyncs of a page, the power cut at every write and sync: which of them stand?", maps)


def torn_map(stops, plain):
    """The same msyncs of this store and of a plain msync, whose pages are written where they belong."""
    maps = [("a plain msync", plain), ("an msync of this store", stops)]
    return side_by_side("Two msyncs of a page, the power cut at every write and sync: what is left of the file?", maps, PARTS)


def side_by_side(title, maps, note=""):
    """Maps with their names, side by side: a column for each write and sync, a row for each filling."""
    left, top, between, lefts = 150, 92, 60, []
    for _, stops in maps:
        lefts.append(left if not lefts else end + between)
        end = lefts[-1] + sum(map(width_of, stops))
    bottom = top + HIGH * len(FILLINGS)
    picture = Picture(end + 20, bottom + 84 + 22 * bool(note))
    picture.word(10, 22, title, size=15)
    picture.word(left - 8, top - 8, "unsynced sectors hold", anchor="end", size=11, color=PALE)
    for row, filling in enumerate(FILLINGS):
        picture.word(left - 8, top + HIGH * row + 15, filling, anchor="end")
    for x, (name, stops) in zip(lefts, maps):
        picture.word(x, top - 36, name, size=13)
        one_map(picture, stops, x, top)
    for place, number in enumerate(("0", "1", "2")):
        picture.box(left + 120 * place, bottom + 54, 14, 14, LEFT[int(number)])
        picture.word(left + 120 * place + 20, bottom + 66, f"after {number} msync{'' if number == '1' else 's'}")
    torn(picture, left + 360, bottom + 66, maps)
    if note:
        picture.word(left, bottom + 90, note)
    return picture.text()


def torn(picture, x, y, maps):
    """Says how many stops of all maps may leave a torn file, and what color that is."""
    count = sum("-" in stop.left for _, stops in maps for stop in stops)
    if count:
        picture.box(x, y - 12, 14, 14, BAD)
    picture.word(x + 20 * bool(count), y, f"torn: {count}", color=BAD if count else INK)


def width_of(stop):
    return WIDE if stop.part in ("sync", "gate") else NARROW


def one_map(picture, stops, left, top):
    """The columns of a layout; numbers stand in those of gates and syncs."""
    x, bottom, places = left, top + HIGH * len(FILLINGS), []
    for stop in stops:
        width = width_of(stop)
        places.append(x)
        for row, number in enumerate(stop.left):
            picture.box(x, top + HIGH * row, width - (2 if width == WIDE else 1), HIGH - 2, BAD if number == "-" else LEFT[int(number) % len(LEFT)])
            if width == WIDE:
                picture.word(x + (width - 2) / 2, top + HIGH * row + 14, number, anchor="middle", size=11)
        x += width
    for wanted, at in (("part", bottom), ("acknowledged", top - 24)):
        for said, row in groupby(range(len(stops)), key=lambda k: getattr(stops[k], wanted)):
            row = list(row)
            first, width = places[row[0]], places[row[-1]] + width_of(stops[row[-1]]) - places[row[0]] - 2
            if wanted == "part":
                named(picture, said, first, width, at, len(row) > 1)
            else:
                picture.box(first, at + 16, width, 2, INK)
                picture.word(first + width / 2, at + 10, f"{said} acknowledged", anchor="middle", size=11)


def text_map(name, stops):
    """The lines of a map in letters: a column for each write and sync, those of one part side by side, and - for what is torn."""
    groups = [list(row) for _, row in groupby(stops, key=lambda it: (it.acknowledged, it.part))]
    bars = [before and before[0].acknowledged != row[0].acknowledged for before, row in zip([None, *groups], groups)]

    def line(head, words):
        cells = (("| " if bar else "") + word.ljust(max(len(row[0].part), len(row))) for bar, word, row in zip(bars, words, groups))
        return f"{head:16}{' '.join(cells)}".rstrip()

    said = [str(row[0].acknowledged) if place == 0 or bars[place] else "" for place, row in enumerate(groups)]
    rows = [line(f"  {filling}", ("".join(it.left[k] for it in row) for row in groups)) for k, filling in enumerate(FILLINGS)]
    return [line(name, (row[0].part for row in groups)), *rows, line("  acknowledged", said)]


def named(picture, part, x, width, bottom, is_row):
    """What was to be written, under its columns."""
    picture.box(x, bottom + 3, width, 2, INK)
    if is_row:
        picture.word(x + width / 2, bottom + 20, part, anchor="middle")
    else:
        picture.word(x + width / 2 + 4, bottom + 12, part, anchor="end", turned=True)


class Row(NamedTuple):
    """A line of bench/run: what was measured, how much it took in which unit, and how many times something else that is."""

    name: str
    taken: float
    unit: str
    times: float
    what: str

    def line(self):
        return f"{self.name:42} {self.taken:10.0f} {self.unit:12} {self.times:9.2f} times {self.what}"


ROW = re.compile(r"(.+?) +([\d.]+) (ns|bytes|instructions) +([\d.]+) times (.+)")


def rows_of(lines):
    """The rows among the lines of bench/run."""
    return [Row(it[1], float(it[2]), it[3], float(it[4]), it[5]) for it in map(ROW.fullmatch, lines) if it]


def bars(rows, what="a warm load"):
    """Those rows as bars, as times of one thing, each ten times longer a step to the right."""
    rows = [it for it in rows if it.what == what]
    if not rows:
        raise ValueError(f"no row against {what}")
    left, top, decade, line = 290, 60, 150, 22
    low = math.floor(math.log10(min(it.times for it in rows)) - 0.1)
    high = math.ceil(math.log10(max(it.times for it in rows)) + 0.01)
    bottom = top + line * len(rows)
    picture = Picture(left + decade * (high - low) + 230, bottom + 40)
    picture.word(10, 22, f"Calls, as times of {what}, text in and text out", size=15)
    for power in range(low, high + 1):
        x = left + decade * (power - low)
        picture.box(x, top - 6, 1, bottom - top + 6, PALE)
        picture.word(x, bottom + 18, f"{10 ** power:,g}", anchor="middle", color=PALE)
    for place, row in enumerate(rows):
        y = top + line * place
        width = decade * (math.log10(row.times) - low)
        picture.word(left - 8, y + 13, row.name, anchor="end")
        picture.box(left, y, width, line - 6, BAR)
        picture.word(left + width + 6, y + 13, f"{figures(row.times)} times, {spoken(row)}")
    return picture.text()


def figures(number):
    """A number in three figures, or as many as it has before the point."""
    return f"{number:,.0f}" if number >= 100 else f"{number:.3g}"


def spoken(row):
    """What a row took: instructions, or a time in a unit that suits it."""
    if row.unit != "ns":
        return f"{row.taken:,.0f} {row.unit}"
    for size, unit in ((1e6, "ms"), (1e3, "us")):
        if row.taken >= size:
            return f"{figures(row.taken / size)} {unit}"
    return f"{figures(row.taken)} ns"


class FaultRow(NamedTuple):
    """A line of tools/faults: a program in so many frames, and its counts by their names."""

    program: str
    frames: int
    counts: dict


def fault_rows(lines):
    """The rows of a table of tools/faults; ValueError where it has none, or one that is not like its head."""
    head, *rows = [it.split() for it in lines if it.strip()] or [[]]
    if head[:2] != ["program", "frames"] or not rows or any(len(it) != len(head) for it in rows):
        raise ValueError("no table of tools/faults")
    return [FaultRow(it[0], int(it[1]), dict(zip(head[2:], map(int, it[2:])))) for it in rows]


def fault_lines(rows):
    """Major page faults and pages read from slots of each program, over the frames: each step to the right is twice the frames, each upwards ten times the count.
    Each program has a color and a mark of its own."""
    left, top, wide, high = 90, 60, 520, 330
    sizes = sorted({it.frames for it in rows})
    most = max(1, math.ceil(math.log10(max(2, *(it.counts["major"] for it in rows)))))
    span = math.log2(sizes[-1] / sizes[0]) or 1

    def place(frames, count):
        return left + wide * math.log2(frames / sizes[0]) / span, top + high - high * math.log10(max(count, 1)) / most

    picture = Picture(left + wide + 160, top + high + 60)
    picture.word(10, 22, "Major page faults (lines), and pages read from slots (dashed)", size=15)
    for power in range(most + 1):
        y = place(sizes[0], 10 ** power)[1]
        picture.box(left, y, wide, 1, "#dddddd")
        picture.word(left - 8, y + 4, f"{10 ** power:,}", anchor="end")
    for frames in sizes:
        x = place(frames, 1)[0]
        picture.box(x, top, 1, high, "#eeeeee")
        picture.word(x, top + high + 18, f"{frames:,}", anchor="middle")
    picture.word(left + wide / 2, top + high + 42, "frames of 4,096 bytes", anchor="middle")
    for row, program in enumerate(dict.fromkeys(it.program for it in rows)):
        color = LINES[row % len(LINES)]
        own = sorted((it for it in rows if it.program == program), key=lambda it: it.frames)
        for name, dashes in (("major", ""), ("from-slot", "5 4")):
            points = [place(it.frames, it.counts[name]) for it in own]
            picture.line(points, color, dashes)
            for x, y in points:
                picture.mark(x, y, row)
        picture.mark(left + wide + 22, top + 9 + 20 * row, row)
        picture.word(left + wide + 34, top + 14 + 20 * row, program, size=14, color=color)
    return picture.text()
