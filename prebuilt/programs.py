"""Which programs stand here, and which files each is made of: its crate and those below it, by crates.txt."""
import hashlib
import os

HERE = os.path.dirname(os.path.abspath(__file__))
TOP = os.path.dirname(HERE)
PROGRAMS = ("pagefmt", "pagerun", "pagecat", "pagelook", "pagestops", "pagesync")


def libraries():
    """The crates that each crate of crates.txt stands on, the kit's among them."""
    with open(f"{TOP}/crates.txt") as file:
        rows = [line.partition(":") for line in file if line.strip() and not line.startswith("#")]
    return {head.split()[0]: rest.split() for head, _, rest in rows}


def crates(name):
    """A crate and those of the tree below it, in the order of the alphabet."""
    below, found, left = libraries(), set(), [name]
    while left:
        it = left.pop()
        if it in below and it not in found:
            found.add(it)
            left += below[it]
    return sorted(found)


def files(name):
    """The paths of what a build of a crate reads: code, definitions and proofs of these crates."""
    for crate in crates(name):
        for part in ("src", "specs", "proofs"):
            for folder, _, names in os.walk(f"{TOP}/crates/{crate}/{part}"):
                yield from (os.path.relpath(os.path.join(folder, it), TOP) for it in names if it.endswith((".rt", ".antt")))


def sum_of(path):
    """The SHA-256 of a file."""
    with open(path, "rb") as file:
        return hashlib.sha256(file.read()).hexdigest()


def sum_of_sources(name):
    """The SHA-256 of a list of a crate's files with theirs, as `sha256sum` prints it."""
    lines = [f"{sum_of(os.path.join(TOP, it))}  {it}\n" for it in sorted(files(name))]
    return hashlib.sha256("".join(lines).encode()).hexdigest()


def proofs(folder):
    """The lines of a folder's PROVED, by the program that each is of."""
    with open(f"{folder}/PROVED") as file:
        return dict(line.rstrip("\n").split(": ", 1) for line in file)
