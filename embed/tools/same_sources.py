"""same_sources.py PROVED: says in a line where the line of proof that stands beside a library of prebuilt/ names other sources than the tree has: the library is
as good as it was, and what was changed since is not in it."""
import os
import sys

EMBED = os.path.dirname(os.path.dirname(os.path.abspath(__file__)))
sys.dont_write_bytecode = True
sys.path.insert(0, os.path.join(EMBED, "prebuilt"))
from sources import TOP, sum_of_sources  # noqa: E402


def main(path):
    if not os.path.exists(f"{TOP}/crates.txt"):
        return
    with open(path) as proved:
        words = proved.read().split()
    if f"sources={sum_of_sources()}" not in words:
        folder = os.path.dirname(path)
        print(f"make: {folder}/libfamsync.a is of other sources than crates/ has now: embed/prebuilt/build makes it anew, or name another by LIBFAMSYNC", file=sys.stderr)


if __name__ == "__main__":
    main(sys.argv[1])
