"""Which files libfamsync.a is made of: the crate famsync and those below it, by crates.txt."""
import hashlib
import os

HERE = os.path.dirname(os.path.abspath(__file__))
TOP = os.path.dirname(os.path.dirname(HERE))
CRATE = "famsync"


def libraries():
    """The crates that each crate of crates.txt stands on, the kit's among them."""
    with open(f"{TOP}/crates.txt") as file:
        rows = [line.partition(":") for line in file if line.strip() and not line.startswith("#")]
    return {head.split()[0]: rest.split() for head, _, rest in rows}


def crates():
    """famsync and the crates of the tree below it, in the order of the alphabet."""
    below, found, left = libraries(), set(), [CRATE]
    while left:
        name = left.pop()
        if name in below and name not in found:
            found.add(name)
            left += below[name]
    return sorted(found)


def files():
    """The paths of what a build of famsync reads of these crates: code, definitions and proofs."""
    for name in crates():
        for part in ("src", "specs", "proofs"):
            for folder, _, names in os.walk(f"{TOP}/crates/{name}/{part}"):
                yield from (os.path.relpath(os.path.join(folder, it), TOP) for it in names if it.endswith((".rt", ".antt")))


def sum_of(path):
    """The SHA-256 of a file."""
    with open(path, "rb") as file:
        return hashlib.sha256(file.read()).hexdigest()


def sum_of_sources():
    """The SHA-256 of a list of these files with theirs, as `sha256sum` prints it."""
    lines = [f"{sum_of(os.path.join(TOP, it))}  {it}\n" for it in sorted(files())]
    return hashlib.sha256("".join(lines).encode()).hexdigest()
