#!/usr/bin/env python3
"""Scripts for four callers in threads of their own, and what has to be so of what their server answered (threads.c).

    threads.py write FOLDER SEED        writes the scripts
    threads.py check FOLDER PROGRAM     checks FOLDER/told, by the program

Each caller has a file and a device's port of its own, and makes a thousand steps there and at a file that is all of
theirs. What the journal has of a pass has to be the steps of one caller or one port, in their order, with the replies
that were told. The program is a core of one thread: where the same steps are made there in the order of the records,
the records have to be the same, and so have the answers to the questions at the end.
"""
import pathlib
import random
import re
import subprocess
import sys

sys.dont_write_bytecode = True
sys.path.insert(0, str(pathlib.Path(__file__).resolve().parents[2] / "examples" / "picture"))

from journal_reader import records

THREADS, STEPS, PAGE = 4, 1000, 4096

# The owner of each file. File 5 is all callers'; of the others each has the one of its number, and the device of it.
USERS = {1: 1, 2: 1, 3: 2, 4: 2, 5: 1}
SHARED = 5
DEVICES = ["0008 39", "0010 39 x86", "0018 48", "0020 57"]
HEAD = ["pool 256", "user 20", "user 20", *(f"file {user}" for user in USERS.values())]
HEAD += [*(f"device {device}" for device in DEVICES), "begin"]

# How many pages a user has, and an address space.
USER_PAGES, SPACE_PAGES = 8, 12

# The fields of each structure behind its size, by their bytes: those with a letter `o` before them are 0, and the
# others are the event's, in their order there.
STRUCTURES = {
    0x80: "4", 0x81: "o4 o4", 0x82: "4 4 o4 o8", 0x83: "4 4 4 8 8 8", 0x84: "4 4 o4 o8 o8", 0x85: "4 4 o4 8 8 8",
    0x86: "4 8 8", 0x89: "o4 4 4 o4 o4", 0xF0: "4 4 o4", 0xF1: "4 4 o4 8 8",
}


def little(number, size):
    return number.to_bytes(size, "little").hex()


def ioctl(file, command, *numbers, behind=""):
    """A step: a structure with these numbers, and with hex digits behind it."""
    fields, left = STRUCTURES[command].split(), list(numbers)
    text = "".join(little(0 if field[0] == "o" else left.pop(0), int(field[-1])) for field in fields)
    return f"ioctl {file} {0x3B00 + command:x} {little(4 + len(text) // 2, 4)}{text}{behind}"


def is_recorded(step):
    """Whether the step makes a record. Two ioctls ask: IOAS_IOVA_RANGES, and a DIRTY_REPORT without its flag."""
    words = step.split()
    if words[0] == "ioctl":
        return words[2] != "3b84" and (words[2] != "3bf1" or words[3][16:18] == "01")
    return words[0] not in ("uread", "dread", "aread", "notices", "free", "held")


def maker(step, thread):
    """Who makes the step of this thread: its caller, or the port of a device."""
    words = step.split()
    of_port = words[0] in ("attach", "detach", "flush", "dread", "dwrite")
    return f"port {words[1]}" if of_port else f"caller {thread}"


# ---- The scripts


def first_steps():
    """Each user's pages, an address space of each file and a second one of the shared, two access objects there, and of
    each other file its device, which is attached."""
    steps = [f"umap {user} {user_page(page):x}" for user in (1, 2) for page in range(USER_PAGES)]
    steps += [ioctl(file, 0x81) for file in [*USERS, SHARED]]
    steps += [f"access {SHARED}"] * 2 + [f"aattach {SHARED} {access} 1" for access in (3, 4)]
    for device in range(1, THREADS + 1):
        steps += [f"bind {device} {device}", f"attach {device} 1"]
    return steps


def last_steps():
    """Questions of all that was shared, and of what each device reads."""
    steps = ["free", "held 1", "held 2", f"notices {SHARED} 3", f"notices {SHARED} 4"]
    steps += [f"uread {user} {user_page(page):x} 64" for user in (1, 2) for page in range(USER_PAGES)]
    steps += [ioctl(file, 0x84, 1, 3) for file in USERS]
    for page in range(SPACE_PAGES):
        steps += [f"dread {device} {page * PAGE:x} 8" for device in range(1, THREADS + 1)]
        steps += [f"aread {SHARED} {access} {page * PAGE:x} 8" for access in (3, 4)]
    return steps


def user_page(number):
    return 0x10000 + number * PAGE


class Steps:
    """What one thread does, at random."""

    def __init__(self, seed, thread):
        self.random, self.own, self.user = random.Random(f"{seed} {thread}"), thread, USERS[thread]

    def below(self, count):
        return int(self.random.random() * count)

    def bytes(self):
        return bytes(self.below(256) for _ in range(1 + self.below(16))).hex()

    def span(self):
        """The first address of a page or some, and their length."""
        return self.below(SPACE_PAGES) * PAGE, max(1, self.below(5) - 1) * PAGE

    def place(self):
        return self.below(SPACE_PAGES) * PAGE + self.below(2) * 100

    def of_space(self, file, space):
        """A step at this address space."""
        (first, length), (other, _) = self.span(), self.span()
        flags = [7, 7, 6, 3, 5][self.below(5)]
        # Where the address is the server's choice, the record has none.
        at = first if flags & 1 else 0
        kind = self.below(12)
        if kind < 6:
            return ioctl(file, 0x85, flags, space, user_page(self.below(USER_PAGES)), length, at)
        if kind < 8:
            return ioctl(file, 0x86, space, first, length)
        if kind < 9:
            return ioctl(file, 0x86, space, 0, 2 * SPACE_PAGES * PAGE)
        if kind < 11:
            return ioctl(file, 0x83, flags, space, 1, PAGE, at, other)
        ranges = "".join(little(end, 8) for end in (0, (8 + self.below(8)) * PAGE - 1))
        return ioctl(file, 0x82, space, 1, behind=ranges)

    def of_file(self):
        """A step of the file that is this thread's."""
        file, kind = self.own, self.below(10)
        if kind < 6:
            return self.of_space(file, 1)
        if kind < 7:
            return ioctl(file, 0x80, 3 + self.below(4))
        if kind < 8:
            return ioctl(file, 0x89, 2, 1)
        first, length = self.span()
        table, flag = 3 + self.below(2), self.below(2)
        return ioctl(file, 0xF1, table, flag, first, length) if kind < 9 else ioctl(file, 0xF0, table, flag)

    def of_device(self):
        device, kind = self.own, self.below(24)
        if kind < 9:
            return f"dwrite {device} {self.place():x} {self.bytes()}"
        if kind < 17:
            return f"dread {device} {self.place():x} {1 + self.below(16)}"
        if kind < 20:
            return f"flush {device}"
        return f"detach {device}" if kind < 21 else f"attach {device} {1 + 3 * self.below(2)}"

    def of_shared(self):
        access, kind = 3 + self.below(2), self.below(16)
        page, right = self.below(4) * PAGE, "rw"[self.below(2)]
        if kind < 5:
            return self.of_space(SHARED, 1 + self.below(2))
        if kind < 11:
            return f"{'apin' if kind < 8 else 'aunpin'} {SHARED} {access} {page:x} {PAGE:x} {right}"
        if kind < 13:
            return f"awrite {SHARED} {access} {page + self.below(100):x} {self.bytes()}"
        if kind < 14:
            return f"aread {SHARED} {access} {page:x} 8"
        if kind < 15:
            return f"notices {SHARED} {access}"
        return f"adetach {SHARED} {access}" if self.below(2) else f"aattach {SHARED} {access} {1 + self.below(2)}"

    def of_user(self):
        page, kind = user_page(self.below(USER_PAGES)), self.below(8)
        if kind < 4:
            return f"uwrite {self.user} {page:x} {self.bytes()}"
        if kind < 7:
            return f"{'umap' if kind < 6 else 'uunmap'} {self.user} {page:x}"
        return ["free", f"held {self.user}", f"uread {self.user} {page:x} 16"][self.below(3)]

    def all(self):
        kinds = [self.of_file, self.of_device, self.of_shared, self.of_user]
        return [kinds[self.below(4)]() for _ in range(STEPS)]


def write(folder, seed):
    parts = [first_steps(), *(Steps(seed, thread).all() for thread in range(1, THREADS + 1)), last_steps()]
    for part, steps in enumerate(parts):
        head = HEAD if part == 0 else ["begin"]
        (folder / f"{part}.script").write_text("\n".join([*head, *steps, ""]))


# ---- What has to be so


def step_of(record):
    """The step that makes such a record."""
    name, fields = record.name, record.event
    file, *rest = fields
    commands = {
        "Destroy": 0x80, "IoasAlloc": 0x81, "Copy": 0x83, "Map": 0x85, "Unmap": 0x86, "HwptAlloc": 0x89,
        "DirtyEnable": 0xF0,
    }
    if name in commands:
        return ioctl(file, commands[name], *rest)
    if name == "DirtyClear":
        return ioctl(file, 0xF1, rest[0], 1, *rest[1:])
    if name == "AllowIovas":
        ranges = "".join(little(end, 8) for span in rest[1] for end in span)
        return ioctl(file, 0x82, rest[0], len(rest[1]), behind=ranges)
    words, kinds = WORDS[name]
    return " ".join([words, *(KINDS[kind](field) for kind, field in zip(kinds, fields))])


# The keyword and the fields of each other event's step.
WORDS = {
    "UserMap": ("umap", "dx"), "UserUnmap": ("uunmap", "dx"), "UserWrite": ("uwrite", "dxb"), "Bind": ("bind", "dd"),
    "Attach": ("attach", "dd"), "Detach": ("detach", "d"), "Flush": ("flush", "d"), "DeviceWrite": ("dwrite", "dxb"),
    "AccessCreate": ("access", "d"), "AccessAttach": ("aattach", "ddd"), "AccessDetach": ("adetach", "dd"),
    "AccessPin": ("apin", "ddxxw"), "AccessUnpin": ("aunpin", "ddxxw"), "AccessWrite": ("awrite", "ddxb"),
}
KINDS = {"d": str, "x": "{:x}".format, "b": lambda field: bytes(field).hex(), "w": lambda field: "rw"[field]}


def told_of(reply, step):
    """A reply, without what the C interface doesn't tell."""
    return re.sub(r" [A-Z][A-Za-z]*", "", reply) if step.startswith("ioctl") else reply


def steps_of(folder, part):
    lines = (folder / f"{part}.script").read_text().splitlines()
    return lines[lines.index("begin") + 1 :]


def journal_of(line):
    return list(records(bytes.fromhex(line.removeprefix("journal "))))


def session(program, steps):
    """What the program replies to these steps, and the records of its journal."""
    script = "\n".join([*HEAD, *steps, ""])
    ran = subprocess.run([program, "session", "--journal"], input=script, capture_output=True, text=True, check=True)
    *replies, last = ran.stdout.splitlines()
    return replies, journal_of(last)


def by_makers(records):
    """The steps and replies of each maker, but those by which a port was made to forget its pages."""
    made = {}
    for by, step, reply in records:
        if not re.fullmatch(r"attach \d 0", step):
            made.setdefault(by, []).append((step, told_of(reply, step)))
    return made


def told_by_makers(parts, lines):
    """The same, as they were told."""
    steps = [(maker(step, part % (THREADS + 1)), step) for part, steps in enumerate(parts) for step in steps]
    return by_makers((by, step, reply) for (by, step), reply in zip(steps, lines, strict=True) if is_recorded(step))


def check(folder, program):
    *lines, last = (folder / "told").read_text().splitlines()
    parts, journal = [steps_of(folder, part) for part in range(THREADS + 2)], journal_of(last)
    steps, last_steps = [step_of(record) for record in journal], parts[-1]
    replies, same = session(program, [*steps, *last_steps])
    recorded = by_makers(zip((record.by for record in journal), steps, replies))
    told = told_by_makers(parts, lines)
    assert len(told) == 1 + 2 * THREADS, "a caller or a port has made no record"
    assert sorted(recorded.values()) == sorted(told.values()), "a pass's records aren't its calls in their order"
    assert [record.text for record in same] == [record.text for record in journal], "a core makes other records"
    asked = [told_of(reply, step) for reply, step in zip(replies[len(steps) :], last_steps, strict=True)]
    assert asked == lines[-len(last_steps) :], "a core answers otherwise"


def main():
    command, folder, word = sys.argv[1:]
    (write if command == "write" else check)(pathlib.Path(folder), word)


if __name__ == "__main__":
    main()
