#!/usr/bin/env python3
"""built.py NAME..: where these programs are: a line with the path of each, and on standard error a line which they are.

They are those of crates/, crates/NAME/out/NAME, where `./demo` or `rt run` has built all that are asked for, and else those of prebuilt/ for this machine's
processor. SOAK_PROGRAMS names another folder, with NAME/out/NAME or NAME. Exit status 1 where there are none.
"""
import os
import sys
from typing import NamedTuple

TOP = os.path.dirname(os.path.dirname(os.path.abspath(__file__)))
sys.dont_write_bytecode = True
sys.path[:0] = [f"{TOP}/prebuilt"]
from programs import PROGRAMS, proofs, sum_of_sources


class Built(NamedTuple):
    """A folder of programs, and which they are: the programs are those of .."""

    folder: str
    told: str

    def path(self, name):
        return path_in(self.folder, name)


def path_in(folder, name):
    """The path of a program in a folder of either kind."""
    path = os.path.abspath(f"{folder}/{name}/out/{name}")
    return path if os.path.exists(path) else os.path.abspath(f"{folder}/{name}")


def has_all(folder, names):
    """Whether a folder has these programs."""
    return all(os.path.isfile(path) and os.access(path, os.X_OK) for path in (path_in(folder, it) for it in names))


def of_prebuilt(names):
    """The programs that stand in the tree for this processor, or none."""
    processor = os.uname().machine
    folder = f"{TOP}/prebuilt/{processor}"
    if not os.path.exists(f"{folder}/PROVED") or not has_all(folder, names):
        return None
    lines = proofs(folder)
    are_same = all(lines[it].endswith(f"sources={sum_of_sources(it)}") for it in names)
    sources = "these sources" if are_same else "other sources than these: prebuilt/build makes them anew"
    return Built(folder, f"prebuilt/{processor}, which {lines[names[0]].split()[0]} has proved, of {sources}")


def built(names=PROGRAMS, folder=None):
    """Where these programs are; none where they are nowhere. A folder that is named is the only place."""
    folder = folder or os.environ.get("SOAK_PROGRAMS")
    if folder:
        return Built(folder, folder) if has_all(folder, names) else None
    if has_all(f"{TOP}/crates", names):
        return Built(f"{TOP}/crates", "crates/, built there")
    return of_prebuilt(names)


def main(names):
    found = built(names)
    if not found:
        place = os.environ.get("SOAK_PROGRAMS")
        return f"not all of {', '.join(names)} are {f'in {place}' if place else 'built: ./demo builds them where the kit is, and prebuilt/ has them for x86-64'}"
    print(f"the programs are those of {found.told}", file=sys.stderr)
    print("\n".join(map(found.path, names)))
    return 0


if __name__ == "__main__":
    sys.exit(main(sys.argv[1:] or list(PROGRAMS)))
