"""What turns of a trace take: instructions where valgrind is there, else processor time."""
import os
import re
import resource
import shutil
import subprocess
import time

GOOD = {b"pid", b"addr", b"ok", b"value"}


class Instructions:
    """Those of one run, as callgrind counts them: the same each time, whatever else the machine does."""

    unit, tries = "instructions", 1
    # glibc fills a page with zeros by one `rep stosb` where it may, which a processor counts as one instruction and valgrind as 4,096.
    environment = {"GLIBC_TUNABLES": "glibc.cpu.hwcaps=-ERMS"} | os.environ

    def turns(self, trace):
        return trace.turns

    def taken(self, words, lines, replies):
        command = ["valgrind", "--tool=callgrind", "--callgrind-out-file=/dev/null", *words]
        done = subprocess.run(command, stdin=lines, stdout=replies, stderr=subprocess.PIPE, env=self.environment)
        if done.returncode:
            raise ValueError(f"{words} ended with {done.returncode}: {done.stderr.decode()}")
        return int(re.search(rb"Collected : (\d+)", done.stderr)[1])


class Nanoseconds:
    """The processor time of a run, its own and the host's for it; of some runs the least."""

    unit, tries = "ns", 5

    def turns(self, trace):
        return tuple(count * trace.more for count in trace.turns)

    def taken(self, words, lines, replies):
        before = spent()
        subprocess.run(words, stdin=lines, stdout=replies, check=True)
        return spent() - before


def spent():
    """The processor time of the commands so far, in nanoseconds."""
    usage = resource.getrusage(resource.RUSAGE_CHILDREN)
    return round(1e9 * (usage.ru_utime + usage.ru_stime))


def clocked(words, lines, replies):
    """How long a command runs by the clock, in nanoseconds."""
    begin = time.monotonic_ns()
    subprocess.run(words, stdin=lines, stdout=replies, check=True)
    return time.monotonic_ns() - begin


def counter():
    """What this machine can count."""
    return Instructions() if shutil.which("valgrind") else Nanoseconds()


class Bench:
    """A folder in which programs run traces over copies of one image."""

    def __init__(self, folder, pagefmt, image):
        self.folder, self.counter = folder, counter()
        subprocess.run([pagefmt, "new", f"{folder}/image", image], check=True)

    def each(self, programs, trace):
        """What a turn takes each of some programs, which have to reply the same."""
        short, long = self.counter.turns(trace)
        less, more = self.least(programs, trace, short), self.least(programs, trace, long)
        return [max(1.0, (b - a) / (long - short)) for a, b in zip(less, more)]

    def least(self, programs, trace, count):
        """The least that a whole run of so many turns takes each program. They run in turn, in an order that changes."""
        self.write(trace, count)
        taken, said = {program: [] for program in programs}, set()
        for attempt in range(self.counter.tries):
            for program in programs[:: 1 if attempt % 2 == 0 else -1]:
                self.renew()
                taken[program].append(self.run(self.counter.taken, self.words(program, trace)))
                said.add(self.replies(trace.name))
        if len(said) > 1:
            raise ValueError(f"{trace.name}: the programs reply differently")
        return [min(taken[program]) for program in programs]

    def renew(self):
        """Makes the copy as the image is."""
        shutil.copy(f"{self.folder}/image", f"{self.folder}/copy")

    def write(self, trace, count):
        """Makes so many turns what the next runs read."""
        with open(f"{self.folder}/trace", "w") as out:
            out.writelines(f"{line}\n" for line in trace.lines(count))

    def words(self, program, trace):
        """The command that runs a trace over the copy."""
        return [program, f"{self.folder}/copy", f"{self.folder}/swap", str(trace.frames), str(trace.slots)]

    def run(self, measure, words):
        """What that measures of a command that reads the lines."""
        with open(f"{self.folder}/trace", "rb") as lines, open(f"{self.folder}/replies", "wb") as replies:
            return measure(words, lines, replies)

    def replies(self, name):
        """The replies of the last run, once it is clear that no line was refused, stalled or left out."""
        with open(f"{self.folder}/trace", "rb") as lines, open(f"{self.folder}/replies", "rb") as replies:
            wanted, text = sum(1 for _ in lines), replies.read()
        found = text.splitlines()
        bad = [it for it in found if it.split(b" ", 1)[0] not in GOOD]
        if bad or len(found) != wanted:
            raise ValueError(f"{name}: {len(found)} replies to {wanted} lines, {bad[:1]}")
        return text


def compiled(source, folder):
    """The path of a C program once it is compiled; None without a compiler."""
    if not shutil.which("cc"):
        return None
    path = os.path.join(folder, os.path.basename(source).removesuffix(".c"))
    subprocess.run(["cc", "-O2", "-o", path, source], check=True)
    return path
