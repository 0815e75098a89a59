"""What a folder stands for, written again in plain Python: the set of files that it recovers to, the policy state of that
set, and the files that a mount leaves: those that were there, where the folder stands for no policy state."""

import re

from device_model import Device
from set_model import Damaged, Sets, files_of

FILE_NAME = re.compile(rb"[A-Za-z0-9._~-]{1,255}")
VERSION = b"version 2\n"
FIXED = [b"guard", b"list", b"stamp", b"buckets", b"users", b"apps", b"template"]


def is_own(name):
    plain = name.removesuffix(b"~")
    return plain in FIXED or plain.startswith((b"_", b"r."))


def may_stand_in_list(name):
    right = FILE_NAME.fullmatch(name) and len(name) <= 254 and not name.endswith(b"~")
    return right and is_own(name) and name not in (b"guard", b"list")


def listed(text, name):
    """The names of a list file of either version. Damage where it is none."""
    names = text.removeprefix(VERSION).split(b"\n")
    if names.pop() or not all(map(may_stand_in_list, names)) or any(low >= high for low, high in zip(names, names[1:])):
        raise Damaged(name, 0)
    return names


def list_of(held):
    """The list file of version 2 that names these files."""
    return VERSION + b"".join(b"%s\n" % name for name in sorted(held))


def recovered(files):
    """The set of files that a folder recovers to, or None where it has none."""
    mark = b"~" if b"guard" in files else b""
    if b"list" + mark not in files:
        if mark:
            raise Damaged(b"list~", 0)
        return None
    held = {}
    for name in listed(files[b"list" + mark], b"list" + mark):
        if name + mark not in files:
            raise Damaged(name, 0)
        held[name] = files[name + mark]
    return held


def device_of(held):
    return Device() if held is None else Sets(held).read()


def at_rest(files, held):
    """The files of a folder with this set, after a mount: those of others stay, and the list is of version 2."""
    others = {name: text for name, text in files.items() if not is_own(name)}
    if held is None:
        return others
    return others | held | {b"list": list_of(held)}


def is_no_store(files):
    """Whether a folder has files of a policy state, but neither the list nor the guard: it is refused."""
    marked = b"list" in files or b"guard" in files
    return not marked and any(is_own(name) and not name.endswith(b"~") for name in files)


def answered(files, answers):
    """What `local` writes over a folder with these files, its status, and the files afterwards. `answers` gives the lines
    of a script's answers from a device on."""
    if is_no_store(files):
        return b"", 6, files
    try:
        held = recovered(files)
        device = device_of(held)
    except Damaged as damaged:
        return b"damaged %s %d\n" % damaged.args, 8, files
    before = device.commit
    written = list(answers(device))
    status = 3 if written and written[-1].startswith(b"syntax ") else 0
    if device.commit != before:
        held = files_of(device)
    return b"".join(line + b"\n" for line in written), status, at_rest(files, held)
