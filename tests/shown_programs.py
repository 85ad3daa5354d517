#!/usr/bin/env python3
"""Stand-ins for pagefmt, pagerun, pagecat and pagestops, by the name that it is called by, for tests/shown: what the documents ask of them, and no more.
PAGER_TOP names the repository."""
import os
import sys

TOP = os.environ["PAGER_TOP"]
sys.dont_write_bytecode = True
sys.path[:0] = [f"{TOP}/embed", f"{TOP}/tools"]
from commits import stops_of_msyncs
from images import new_image


def pagefmt(words):
    """pagefmt new IMAGE zero:LEN..."""
    _, image, *specs = words
    with open(image, "xb") as out:
        out.write(new_image([int(it.removeprefix("zero:"), 0) for it in specs]))


def pagestops(words):
    """pagestops --drop K zero:4096, over a trace whose msyncs each take the page."""
    msyncs = sum(it.startswith("msync ") for it in sys.stdin)
    print("\n".join(stops_of_msyncs(2, [[0]] * msyncs, drop=int(words[1]))))


def main(name, words):
    if name == "pagefmt":
        pagefmt(words)
    elif name == "pagestops":
        pagestops(words)
    else:
        program = {"pagerun": f"{TOP}/tests/pager.py", "pagecat": f"{TOP}/tools/imagecat"}[name]
        os.execv(program, [program, *words])


main(os.path.basename(sys.argv[0]), sys.argv[1:])
