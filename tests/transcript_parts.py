"""The parts of docs/transcript.txt: what tests/transcript and tests/try look at."""
import os
import re

WAITING = re.compile(r"  [\d:]+ waiting for rt try, .*")
TOP = os.path.dirname(os.path.dirname(os.path.abspath(__file__)))


def read(path):
    with open(f"{TOP}/{path}") as file:
        return file.read()


def part_of(name):
    """The lines that the transcript has of a script."""
    parts = re.split(r"^\$ (.*)\n", read("docs/transcript.txt"), flags=re.M)
    lines = dict(zip(parts[1::2], parts[2::2]))[name].splitlines()
    return lines if lines[-1] else lines[:-1]


def shape_of(lines):
    """Lines without their times, without how many msyncs came before kills, without what a plain file was like after them, and without what says that something is
    waited for, or of which sources the programs are."""
    text = re.sub(r"\b\d+:\d\d\b", "M:SS", "\n".join(it for it in lines if not WAITING.fullmatch(it)))
    text = re.sub(r", which \S+ has proved, of .*", ", proved", text)
    text = re.sub(r"(tools/kills --plain\n  )killed .*", r"\1killed", text)
    return re.sub(r"killed \d+ times, \d+ msyncs acknowledged", "killed", text).split("\n")
