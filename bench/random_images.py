"""Images of random files, of layout 2, and of layout 4, whose files may get other lengths."""
import os
import subprocess
from typing import NamedTuple

from checked_runs import DIRECTORY, program
from flat_model import MOST_PAGES, PAGE, File


class Layout(NamedTuple):
    """The words of pagefmt that make an image, how many pages an msync takes and whether files get other lengths, and the weight of truncates in a trace."""

    words: tuple
    of_model: tuple
    truncates: int


OLD, POOL = Layout(("new",), (MOST_PAGES, False), 1), Layout(("new4", "--pool", "1008"), (504, True), 6)
SPARE = 4096  # homes that an image has beside those of its files, where it is longer
POOL_HOMES = 16 + 8080  # the first sector of the homes of such a pool


def formatted(rng, folder, words):
    """An image of one to four files in a folder, as these words of pagefmt make it, and the files of the model."""
    files, specs = [], []
    for k in range(rng.randrange(1, 5)):
        length = rng.choice((0, 1, 4096, 5000, 8192, 20000, rng.randrange(40000)))
        if rng.random() < 0.5:
            files.append(File.new(False, bytes(length)))
            specs.append(f"zero:{length}")
            continue
        read_only = rng.random() < 0.3
        content = rng.randbytes(length)
        with open(f"{folder}/host{k}", "wb") as host:
            host.write(content)
        files.append(File.new(read_only, content))
        specs.append(f"{'ro' if read_only else 'rw'}:{folder}/host{k}")
    subprocess.run([program("pagefmt"), *words, f"{folder}/image", *specs], check=True)
    return files


def widened(folder, spare):
    """How many homes the image of a pool has, once it has so many more."""
    size = os.path.getsize(f"{folder}/image") + PAGE * spare
    os.truncate(f"{folder}/image", size)
    return (size // 512 - POOL_HOMES) // 8 - DIRECTORY
