"""Images of layout 3, as docs/FORMATS.md has them: no program makes or opens one, and pagefmt upgrade4 makes images of layout 4 of them."""

DIRECTORY, GATE, MAPS, HOMES = 9, 16, (24, 8216), 16408  # sectors
MOST = 1023  # pages of a journal


def third_image(lengths, journals=({}, {}), homes=None, named=1):
    """An image of writable files of these lengths, with these pages in its two journals, and in homes, by their homes. Its gate names that journal."""
    entries, first = b"", 0
    for length in lengths:
        entries += (1 << 31 | first).to_bytes(4, "little") + length.to_bytes(4, "little")
        first += (length + 4095) // 4096
    image = bytearray(512 * HOMES + 4096 * first)
    gate = b"GATEOPEN" * 64 if named else bytes(512)
    parts = [(0, b"FAMSYNC3" * 128), (DIRECTORY, entries), (GATE, gate), *((HOMES + 8 * home, page) for home, page in (homes or {}).items())]
    for start, pages in zip(MAPS, journals):
        parts += [(start, b"".join(it.to_bytes(4, "little") for it in (len(pages), *pages))), (start + 8, b"".join(pages.values()))]
    for sector, content in parts:
        image[512 * sector:512 * sector + len(content)] = content
    return bytes(image)
