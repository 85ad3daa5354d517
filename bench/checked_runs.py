"""Runs of the built programs against the flat model: every reply, every file, and which device failed. What bench/soak and tests/faults share."""
import copy
import functools
import os
import subprocess
import sys
from collections import Counter
from dataclasses import dataclass, field
from typing import NamedTuple

from flat_model import NOFRAMES, NOSWAP, PAGE, STOREDEV, SWAPDEV, command_of, open_stalls, page_count

HERE = os.path.dirname(os.path.abspath(__file__))
TOP = os.path.dirname(HERE)
sys.path.insert(0, f"{TOP}/tools")
from built import built  # noqa: E402

STOPPED = 70
EIO, ENOSPC = "error 5 EIO", "error 28 ENOSPC"
DIRECTORY = 4  # pages that pagefmt gives one of layout 4
LEAST_ROOM = 64  # homes that a file gets at least where it gets new ones
MUCH_ROOM = 12  # times the homes that files may have: then there is a row for each


class Disagreement(Exception):
    pass


class Setting(NamedTuple):
    """The sizes of a machine, which of its devices may fail, and how many homes the image has for pages of files."""

    frames: int
    slots: int
    store_fails: bool
    swap_fails: bool
    homes: int = 0


@dataclass
class Told:
    """What the replies of a run tell: the files that are durable at first and after each msync, which of these was acknowledged last, how many
    lines have replies, whether the machine halted, how often each command stalled for what, and how many msyncs lacked room for lengths."""

    durable: list
    acknowledged: int = 0
    lines: int = 0
    is_halted: bool = False
    stalls: Counter = field(default_factory=Counter)
    lacking: int = 0


@functools.cache
def program(name):
    found = built((name,))
    if not found:
        sys.exit(f"{os.path.basename(sys.argv[0])}: {name} is not built; run ./demo first")
    print(f"{name} is that of {found.told}", file=sys.stderr)
    return found.path(name)


def may_stall(model, command, effect, reply, setting):
    """Whether a command that would succeed may stall so: that stall is open to it, and the tables of the state after it and three more frames do not
    fit in memory, the pages that only memory or swap can hold are more than the slots, or the device that it names fails in this case."""
    if reply not in open_stalls(model, command, effect):
        return False
    if reply == NOFRAMES:
        before = copy.deepcopy((model.spaces, model.objects, model.touched, model.files))
        if effect:
            effect()
        tables = model.tables()
        model.spaces, model.objects, model.touched, model.files = before
        return tables + 3 > setting.frames
    return {NOSWAP: model.held() > setting.slots, SWAPDEV: setting.swap_fails, STOREDEV: setting.store_fails}[reply]


def has_room(model, command, setting):
    """Whether the image has room for the lengths that an msync makes durable: True or False where it is so for certain, else None. A file that gets more pages than
    it has durably gets one more row of homes, at least as many as it has, if there is such a row, or else as many as are missing; what a commit takes from
    files it can't give to others."""
    chosen, resized = model.taken(*command[1:4])
    files = [model.files[number] for number in resized]
    grown = [page_count(it.length) for it in files if page_count(it.length) > page_count(it.durable_length)]
    cut = sum(page_count(it.durable_length) - it.shortest // PAGE for it in files)
    if sum(grown) > setting.homes:
        return False
    wide = sum(max(LEAST_ROOM, page_count(it.durable_length)) for it in model.files) + sum(grown)
    is_wide = not grown or MUCH_ROOM * wide <= setting.homes
    return True if is_wide and len(chosen) + cut + DIRECTORY <= model.most else None


def is_commit_of_lengths(model, command, effect):
    return command is not None and command[0] == "msync" and effect is not None and bool(model.taken(*command[1:4])[1])


def carry_out(told, model, command, effect):
    """Takes what a command does as done."""
    if effect:
        effect()
    if command and command[0] == "msync" and effect:
        told.durable.append(model.durable())


def is_allowed(told, model, command, effect, reply, setting):
    """Whether a command that would succeed may have a reply that is not the model's. An msync in which the store fails halts the machine; what stalls
    does nothing, nor does one whose lengths the image has no room for."""
    if reply == ENOSPC and is_commit_of_lengths(model, command, effect):
        told.lacking += 1
        return not has_room(model, command, setting)
    if command[0] == "msync" and effect and reply == EIO and setting.store_fails:
        carry_out(told, model, command, effect)
        told.is_halted = True
        return True
    told.stalls[command[0], reply] += 1
    return may_stall(model, command, effect, reply, setting)


def compared(model, lines, replies, setting):
    """What the replies tell; the model is the one after the lines that have some."""
    told, at = Told([model.durable()]), 0
    for line in lines:
        if at >= len(replies):
            return told
        command = command_of(line)
        wanted, effect = ("bad line", None) if command is None else ("halted", None) if told.is_halted else model.answer(command)
        told.lines += 1
        got = "\n".join(replies[at:at + 1 + wanted.count("\n")])
        if got == wanted and not (is_commit_of_lengths(model, command, effect) and has_room(model, command, setting) is False):
            at += 1 + wanted.count("\n")
            carry_out(told, model, command, effect)
            if command and command[0] == "msync" and effect:
                told.acknowledged = len(told.durable) - 1
            continue
        would_succeed = command is not None and not wanted.startswith(("error", "fault", "bad", "halted"))
        if not (would_succeed and is_allowed(told, model, command, effect, replies[at], setting)):
            raise Disagreement(f"line {told.lines}: {line!r}\nwanted: {wanted}\ngot:    {got}")
        at += 1
    if at < len(replies):
        raise Disagreement(f"{len(replies) - at} replies too many")
    return told


def rest_of(model, lines, durable, setting):
    """What is durable after each msync of the lines whose replies were lost in a stop."""
    for line in lines:
        command = command_of(line)
        if command is None:
            continue
        _, effect = model.answer(command)
        room = has_room(model, command, setting) if is_commit_of_lengths(model, command, effect) else True
        if room is None:
            raise Disagreement("it is not certain whether a lost msync had room")
        if effect and room:
            effect()
            if command[0] == "msync":
                durable.append(model.durable())


def written_out(folder, count):
    """The files of the image, as both readers write them out."""
    files = []
    for number in range(count):
        # the Python reader first: pagecat recovers the image
        other = subprocess.run([f"{TOP}/tools/imagecat", f"{folder}/image", str(number)], check=True, stdout=subprocess.PIPE).stdout
        files.append(subprocess.run([program("pagecat"), f"{folder}/image", str(number)], check=True, stdout=subprocess.PIPE).stdout)
        if files[-1] != other:
            raise Disagreement(f"file {number}: pagecat and imagecat differ")
    return files


def failed_calls(folder):
    """How many calls of each device failed or stopped."""
    if not os.path.exists(f"{folder}/told"):
        return Counter()
    with open(f"{folder}/told") as told:
        return Counter(told.read().split())


def refused_for(ran, folder):
    """The device for whose failure a machine did not start, or none."""
    lines = {"boot 4 DEVICE": "store", f"cannot open {folder}/image": "store", f"cannot open {folder}/swap": "swap"}
    is_start = ran.returncode == 1 and not ran.stdout
    return lines.get(ran.stderr.decode().removeprefix("pagerun: ").removesuffix("\n")) if is_start else None


def check_named(failed, told, refused):
    """A reply names a device exactly where it failed: so one does where it failed at all, and no more than calls have failed. Where a machine did not start, the first
    device that failed is named alone."""
    named = Counter({"store": told.is_halted, "swap": 0})
    for (_, stall), number in told.stalls.items():
        named.update({STOREDEV: {"store": number}, SWAPDEV: {"swap": number}}.get(stall, {}))
    named.update([refused] if refused else [])
    for device, number in named.items():
        if number > failed[device] or (failed[device] and not number and not refused):
            raise Disagreement(f"the {device} device failed in {failed[device]} calls, and {number} replies say so")


def replies_of(ran, model, lines, setting, is_stop):
    """What the replies of a run tell, and how it ended in a word."""
    text = ran.stdout.decode()
    told = compared(model, lines, text[:text.rfind("\n") + 1].split("\n")[:-1], setting)
    wanted = STOPPED if ran.returncode == STOPPED and is_stop else 3 if told.is_halted else 0
    if ran.returncode != wanted or ran.stderr or (told.lines < len(lines) and wanted != STOPPED):
        raise Disagreement(f"status {ran.returncode} after {told.lines} of {len(lines)} lines: {ran.stderr.decode()}")
    if wanted == STOPPED:
        rest_of(model, lines[told.lines:], told.durable, setting)
    return told, "stopped" if wanted == STOPPED else "halted" if told.is_halted else "done"


def build_torn(folder):
    """Builds the library that fails and tears calls, as torn.so in that folder."""
    subprocess.run(["cc", "-O2", "-shared", "-fPIC", "-o", f"{folder}/torn.so", f"{HERE}/torn.c", "-ldl"], check=True)


def with_devices(folder, noted):
    """The environment of a program whose devices do what is noted, as torn.c has it."""
    preloaded = {"LD_PRELOAD": f"{folder}/torn.so", "TORN_TOLD": f"{folder}/told"} if noted else {}
    return {**os.environ, **preloaded, **noted}


def ran_on(folder, trace, setting, noted):
    """A run of a trace on the image of a folder, whose devices do what is noted."""
    words = [program("pagerun"), f"{folder}/image", f"{folder}/swap", str(setting.frames), str(setting.slots)]
    return subprocess.run(words, input=trace, env=with_devices(folder, noted), capture_output=True, timeout=300)


def checked(ran, folder, model, lines, setting, is_stop):
    """How a run ended, in a word, what its replies tell, and how often each device failed. The model is the one after it."""
    failed = failed_calls(folder)
    refused = refused_for(ran, folder)
    told, kind = (Told([model.durable()]), "refused at its start") if refused else replies_of(ran, model, lines, setting, is_stop)
    check_named(failed, told, refused)
    found = written_out(folder, len(model.files))
    may_be = told.durable[told.acknowledged:] if kind in ("stopped", "halted") else told.durable[-1:]
    if found not in may_be:
        raise Disagreement(f"{kind}: the files are none of {len(may_be)} prefixes")
    return kind, told, failed
