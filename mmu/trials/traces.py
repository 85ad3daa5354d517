"""Traces by hardware: the examples and those of docs/COMMANDS.md, random ones against the flat model, and controls: kernels whose fences are left out, and pagers that
lie, have to be noticed."""
import importlib.machinery
import importlib.util
import os
import random
import re
import shutil
import subprocess
import sys
import tempfile
from collections import Counter
from concurrent.futures import ThreadPoolExecutor

HERE = os.path.dirname(os.path.abspath(__file__))
MMU = os.path.dirname(HERE)
TOP = os.path.dirname(MMU)
sys.path[:0] = [MMU, f"{TOP}/bench"]
import random_lines
from checked_runs import Disagreement, Setting, compared, written_out
from emulator import make, make_kernel, make_swap, pagefmt
from flat_model import command_of
from random_images import OLD, POOL, SPARE, formatted, widened
from tracing import TouchingModel, of_kernel, of_linux, traced

COUNTS = re.compile(r"kernel: accesses (\d+), let through by hardware (\d+), differing (\d+)")
HARDWARE, LINUX = (of_kernel, "tracer"), (of_linux, "linux/pagemmu")
AT_ONCE = max(1, (os.cpu_count() or 1) // 2)  # runs
LYING = ("wrong_root", "wrong_leaf")


def loaded(path):
    """A script as a module."""
    name = os.path.basename(path)
    loader = importlib.machinery.SourceFileLoader(name, path)
    module = importlib.util.module_from_spec(importlib.util.spec_from_loader(name, loader))
    loader.exec_module(module)
    return module


examples = loaded(f"{TOP}/tests/examples")


def at_once(call, items):
    """What a call gives of each, in their order."""
    with ThreadPoolExecutor(AT_ONCE) as pool:
        return list(pool.map(call, items))


def named(told):
    """How many accesses there were, were let through, and differed, by what a kernel told; nothing where it stopped."""
    found = COUNTS.search("\n".join(told))
    return dict(zip(("accesses", "let through", "differing"), map(int, found.groups()))) if found else {}


def of_example(example, run, mode="sv39"):
    """The replies to an example, what was told, the exit status, and what its files hold in the end."""
    with tempfile.TemporaryDirectory() as room:
        image, swap = f"{room}/image", f"{room}/swap"
        specs = [it.replace(":HANDLES", f":{TOP}/HANDLES") for it in example.specs or ["zero:0"]]
        pagefmt(example.verb, image, specs)
        make_swap(swap, example.slots)
        ran = traced([it.encode() for it in example.lines], (image, swap), (example.frames, example.slots, mode), run)
        return *ran, written_out(room, len(example.specs))


def try_examples(tally, name, run):
    """Each reply of an example byte for byte, and what is durable after it."""
    sums = Counter()
    found = examples.examples()
    for example, (texts, told, status, held) in zip(found, at_once(lambda it: of_example(it, run), found)):
        tally.check(f"{name}: {example.name}", ("\n".join(texts), status), ("\n".join(example.replies), 0))
        tally.check(f"{name}: {example.name}: what is durable", held, examples.durable(example))
        sums.update(named(told))
    print(f"examples by {name}: {sums['accesses']} accesses, {sums['let through']} let through, {sums['differing']} differing")


def try_longer_walks(tally):
    """In Sv48 the replies are the same, but of the example that has the last address of Sv39, and of those in so few frames that a table more may stall them."""
    found = [it for it in examples.listed() if it.name != "address" and it.frames >= 64]
    for example, (texts, _, status, _) in zip(found, at_once(lambda it: of_example(it, HARDWARE, "sv48"), found)):
        tally.check(f"hardware, sv48: {example.name}", ("\n".join(texts), status), ("\n".join(example.replies), 0))


def try_script(tally):
    """mmu/trace prints replies as pagerun does."""
    done = subprocess.run([f"{MMU}/trace", "zero:4096"], input=examples.read("examples/faults.trace"), capture_output=True)
    tally.check("mmu/trace", (done.stdout, done.returncode), (examples.read("examples/faults.replies"), 0))


def crowded_lines(rng, length, files, truncates):
    """Lines of three processes, mostly accesses to pages that stay mapped: hardware lets many of them through."""
    ranges = [f"mmap {pid} {at:#x} {12 * random_lines.PAGE} rwx {kind} fixed" for pid in (1, 2, 3) for at, kind in ((0x10000, "anon"), (0x1C000, "private 0 0"))]
    rest = (random_lines.access(rng, rng.randrange(1, 4), 16) if rng.random() < 0.96 else random_lines.line(rng, 16, files, 3, truncates) for _ in range(length))
    return [it.encode() for it in ("spawn", "spawn", "spawn", *ranges, *rest)]


def random_lines_of(rng, length, files, truncates):
    """Lines as bench/soak has them, or crowded ones."""
    return random_lines.trace(rng, length, files, truncates).split(b"\n")[:-1] if rng.random() < 0.5 else crowded_lines(rng, length, files, truncates)


def random_case(seed, length):
    """A random trace on hardware, over an image as bench/soak makes them: what the kernel told, and what is wrong with replies and files, or none."""
    rng = random.Random(seed)
    with tempfile.TemporaryDirectory() as room:
        layout = rng.choice((OLD, POOL))
        files = formatted(rng, room, layout.words)
        homes = widened(room, rng.choice((0, SPARE))) if layout is POOL else 0
        lines = random_lines_of(rng, length, len(files), layout.truncates)
        setting = Setting(rng.choice((8, 10, 12, 16, 64, 1024)), rng.choice((0, 2, 16, 64)), False, False, homes)
        make_swap(f"{room}/swap", setting.slots)
        texts, told, status = traced(lines, (f"{room}/image", f"{room}/swap"), (setting.frames, setting.slots, "sv39"), HARDWARE)
        model = TouchingModel(files, [text for line, text in zip(lines, texts) if command_of(line)], layout.of_model)
        try:
            compared(model, lines, "\n".join(texts).split("\n"), setting)
            is_durable = written_out(room, len(files)) == model.durable()
        except Disagreement as why:
            return told, str(why)
    return told, None if is_durable and not status else f"status {status}, durable: {is_durable}"


def try_random(tally, number, length, seed):
    sums = Counter()
    seeds = range(seed, seed + number)
    for k, (told, wrong) in zip(seeds, at_once(lambda it: random_case(it, length), seeds)):
        tally.check(f"random trace {k}", wrong, None)
        sums.update(named(told))
    print(f"{number} random traces of {length} lines: {sums['accesses']} accesses, {sums['let through']} let through by hardware alone, {sums['differing']} differing")


def fence_example():
    """Stores and loads of one process, between which its tables change: without fences hardware goes by what they said before."""
    lines = examples.text_lines("mmu/trials/fence.trace")
    model = TouchingModel([])
    replies = []
    for line in lines:
        reply, effect = model.answer(command_of(line.encode()))
        if effect:
            effect()
        replies.append(reply)
    return examples.Example("fence", [], 64, 16, lines, replies)


def try_controls(tally):
    """What is wrong is noticed: by a reply, by an access that hardware does not grant, or by a kernel that stops."""
    fence = fence_example()
    tally.check("fence.trace", of_example(fence, HARDWARE)[0], fence.replies)
    unfenced = of_example(fence, (of_kernel, make_kernel("tracer", "unfenced")))[0]
    tally.check("fence.trace without fences", unfenced == fence.replies, False)
    for lie in LYING:
        run, found = (of_kernel, make_kernel("tracer", lie)), [it for it in examples.listed() if len(it.lines) < 100]
        noticed = sum("\n".join(texts) != "\n".join(it.replies) or status for it, (texts, _, status, _) in zip(found, at_once(lambda it: of_example(it, run), found)))
        tally.check(f"{lie}: examples that notice", noticed > 0, True)
        print(f"{lie}: {noticed} of {len(found)} examples notice")


def try_traces(tally, number, length, seed):
    make_kernel("tracer")
    try_examples(tally, "hardware", HARDWARE)
    try_longer_walks(tally)
    try_script(tally)
    try_random(tally, number, length, seed)
    try_controls(tally)
    if not shutil.which("qemu-riscv64"):
        print("skipped: there is no qemu-riscv64 on the path (apt-get install qemu-user), so the pager was not run as a program of Linux")
        return
    make("out/linux/pagemmu")
    try_examples(tally, "a program of Linux", LINUX)
