"""The kernel under QEMU: what has to be installed, programs, images, disks, variants of the kernel, and QEMU's words."""
import os
import re
import shutil
import subprocess
import sys

HERE = os.path.dirname(os.path.abspath(__file__))
MMU, TOP = HERE, os.path.dirname(HERE)
sys.path.insert(0, f"{TOP}/tools")
from built import built

QEMU = os.environ.get("QEMU", "qemu-system-riscv64")
OLDEST = (8, 1)  # the first that can leave the accessed and dirty bits to software
PAGE = 4096
FILE_BYTES = 65536
ROOM = 4096  # pages that files may get more
LAYOUTS = {"2": "new", "4": "new4"}  # and the verbs of pagefmt that make them
CPU = "rv64,h=true,svade=on,svadu=off"  # with a hypervisor, and accessed and dirty bits left to software


def lacking():
    """What has to be installed before a program can run; none where nothing."""
    for tool in ("make", os.environ.get("CLANG", "clang"), "ld.lld", QEMU):
        if shutil.which(tool) is None:
            return f"there is no {tool} on the path: apt-get install make clang lld, and QEMU 8.1 or later (-t bookworm-backports qemu-system-riscv)"
    said = subprocess.run([QEMU, "--version"], stdout=subprocess.PIPE, text=True, check=True).stdout
    found = re.search(r"version (\d+)\.(\d+)", said)
    if found is None or (int(found[1]), int(found[2])) < OLDEST:
        return f"{said.splitlines()[0]} sets the accessed and dirty bits itself: install QEMU 8.1 or later (-t bookworm-backports qemu-system-riscv)"
    return None


def make(*words):
    subprocess.run(["make", "-s", "-C", HERE, *words], check=True)


def compiled(source, folder):
    """The ELF file of a program."""
    made = f"{folder}/{os.path.basename(source).removesuffix('.c')}"
    make(made, f"SOURCE={os.path.abspath(source)}", f"MADE={made}")
    return made


def pagefmt(verb, path, specs):
    """An image of these files, by pagefmt: of layout 4 with the verb `new4`."""
    subprocess.run([built(["pagefmt"]).path("pagefmt"), verb, path, *specs], check=True)


def program_files(programs):
    """The files of an image with these programs, and one to write in."""
    return [*(f"ro:{it}" for it in programs), f"zero:{FILE_BYTES}"]


def make_image(path, programs, verb="new"):
    pagefmt(verb, path, program_files(programs))


def make_roomy_image(path, specs, layout):
    """An image of these files in this layout: of layout 4 with homes for files that grow."""
    pagefmt(LAYOUTS[layout], path, specs)
    if layout == "4":
        os.truncate(path, os.path.getsize(path) + PAGE * ROOM)


def make_swap(path, slots):
    """A swap device with so many slots; QEMU wants no empty disk."""
    with open(path, "wb") as file:
        file.truncate(PAGE * max(slots, 1))


def make_kernel(*variants):
    """The kernel, or with these variants one that has their functions. Returns its name."""
    name = "-".join(variants) or "kernel"
    words = [f"VARIANT={' '.join(variants)}", f"VARIANT_MADE=out/{name}"] if variants else []
    make(f"out/{name}", *words)
    return name


def disk(path):
    """The words of a disk: a file."""
    return f"format=raw,file={path}"


def logged_disk(path, log):
    """One whose writes and flushes are noted in a log, in their order."""
    return f"driver=blklogwrites,file.driver=file,file.filename={path},log.driver=file,log.filename={log}"


def failing_disk(path, which):
    """One of which the first call of a kind at a sector fails, and none after it: iotype=read,sector=N or iotype=write,sector=N."""
    rule = f"event=none,errno=5,once=on,{which}"
    return f"driver=blkdebug,image.driver=file,image.filename={path}," + ",".join(f"inject-error.0.{it}" for it in rule.split(","))


def qemu_words(disks, words, kernel="kernel", cpu=CPU, device=""):
    """QEMU's words: one hart, and disks, the image first. Its clock counts instructions, so each run is as the last."""
    drives = [it for n, drive in enumerate(disks) for it in ("-drive", f"if=none,id=disk{n},{drive}", "-device", f"virtio-blk-device,drive=disk{n},bus=virtio-mmio-bus.{n}{device}")]
    return [QEMU, "-machine", "virt", "-cpu", cpu, "-smp", "1", "-m", "512M", "-icount", "shift=0,sleep=off",
            "-display", "none", "-serial", "stdio", "-monitor", "none", "-global", "virtio-mmio.force-legacy=false",
            "-kernel", f"{HERE}/out/{kernel}", "-append", " ".join(map(str, words)), *drives]
