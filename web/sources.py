"""Which files the modules of web/prebuilt are made of: their crates and those below them, by crates.txt."""
import hashlib
import os

HERE = os.path.dirname(os.path.abspath(__file__))
TOP = os.path.dirname(HERE)
PROGRAMS = ("pagefmt", "pagelook", "pagecat")  # of the page
LIBRARY = "famsync"  # of the note pad
BUILT = (*PROGRAMS, LIBRARY)


def libraries():
    """The libraries that each crate of crates.txt stands on, the kit's among them."""
    with open(f"{TOP}/crates.txt") as file:
        rows = [line.partition(":") for line in file if line.strip() and not line.startswith("#")]
    return {head.split()[0]: rest.split() for head, _, rest in rows}


def libraries_below(crate):
    """The crates of the tree below one, in the order of the alphabet."""
    rows, found, left = libraries(), set(), [crate]
    while left:
        for name in rows[left.pop()]:
            if name in rows and name not in found:
                found.add(name)
                left.append(name)
    return sorted(found)


def files(crate):
    """The paths of what a build of a crate reads of the tree: code, definitions and proofs."""
    for name in [crate, *libraries_below(crate)]:
        for part in ("src", "specs", "proofs"):
            for folder, _, names in os.walk(f"{TOP}/crates/{name}/{part}"):
                yield from (os.path.relpath(os.path.join(folder, it), TOP) for it in names if it.endswith((".rt", ".antt")))


def sum_of(path):
    """The SHA-256 of a file."""
    with open(path, "rb") as file:
        return hashlib.sha256(file.read()).hexdigest()


def sum_of_sources(crate):
    """The SHA-256 of a list of these files with theirs, as `sha256sum` prints it."""
    lines = [f"{sum_of(os.path.join(TOP, it))}  {it}\n" for it in sorted(files(crate))]
    return hashlib.sha256("".join(lines).encode()).hexdigest()
