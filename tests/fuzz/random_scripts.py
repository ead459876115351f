#!/usr/bin/env python3
"""Random scripts, each carried out by the program and its journal audited; by hand, and no part of the gate.

    tests/fuzz/random_scripts.py PROGRAM [--seconds N] [--seed N] [--steps N] [--beside OTHER ..]

PROGRAM is the built `iommufd`. Of each script the program has to end with status 0 and nothing on standard error, with
a reply for each step, and an audit of its journal has to say `run N`, N being the number of steps that make a record.
With --beside the script goes through another program of the same session as well (its words follow), and the lines of
both have to be the same. The first script that fails stands in the current folder as failed.script, with status 1.

Worlds are small, so that steps meet: a few frames, users, files and devices, addresses in a few places (below and at
the ends of tables and widths). A script begins with a world that is likely to stand (pages, areas, devices attached, an
access object), whose ids are guessed, and goes on with steps of all kinds by likely ids; now and then a number is none.
"""
import argparse
import random
import struct
import subprocess
import sys
import time

PAGE = 4096
ENDS = [1 << 39, 1 << 48, 1 << 57]
FLAGS = [7, 7, 7, 7, 5, 3, 6, 6, 1, 4, 2, 0]


def head_of(pick):
    """A head, and how many users, files and devices it has."""
    users, files, devices = pick.randint(1, 2), pick.randint(1, 3), pick.choice([0, 1, 1, 2, 2, 3])
    lines = [f"pool {pick.choice([5, 8, 12, 16, 24, 40, 40])}"]
    lines += [f"user {pick.choice([1, 2, 4, 8, 8, 8, 16])}" for _ in range(users)]
    lines += [f"file {pick.randint(1, users)}" for _ in range(files)]
    for number in range(devices):
        spans = pick.choice(["", "", "", " x86", " 4000-4fff", " x86 8000-9fff 9000-afff"])
        lines.append(f"device {8 * (number + 1):04x} {pick.choice([39, 39, 48, 57])}{spans}")
    return lines + ["begin"], users, files, devices


class Steps:
    """Random steps of a script with so many users, files and devices."""

    def __init__(self, pick, users, files, devices):
        self.pick, self.users, self.files, self.devices = pick, users, files, devices
        # The ids that objects of each kind are likely to have in file 1, and the one that comes next.
        self.ids, self.coming = {"ioas": [], "device": [], "hwpt": [], "access": []}, 1

    def file(self):
        return self.pick.choice([1] * 20 + [*range(1, self.files + 1)] * 2 + [self.files + 1])

    def user(self):
        return self.pick.choice([*range(1, self.users + 1)] * 8 + [self.users + 1])

    def device(self):
        return self.pick.choice([*range(1, self.devices + 1)] * 20 + [self.devices + 1])

    def made(self, kind):
        """An object of this kind is likely to come."""
        self.ids[kind].append(self.coming)
        self.coming += 1

    def object(self, *kinds):
        likely = [it for kind in kinds for it in self.ids[kind]]
        return self.pick.choice(likely * 12 + [*range(0, 8)] + [1 << 31])

    def memory(self):
        """A user's address."""
        return 0x10000 + PAGE * self.pick.randint(0, 5) + self.pick.choice([0] * 40 + [1, 1 << 48])

    def iova(self):
        far = self.pick.choice([0] * 16 + [1 << 21, 1 << 30, *ENDS])
        near = PAGE * self.pick.choice([0, 1, 1, 1, 2, 2, 3, 4, 5, 6]) - (6 * PAGE if far in ENDS else 0)
        return (far + near + self.pick.choice([0] * 40 + [1])) % (1 << 64)

    def length(self):
        return max(0, self.pick.choice([1, 1, 1, 1, 2, 2, 3, 5]) * PAGE + self.pick.choice([0] * 40 + [1, -PAGE]))

    def flags(self):
        return self.pick.choice(FLAGS)

    def bytes(self):
        return bytes(self.pick.randrange(256) for _ in range(self.pick.choice([1, 1, 2, 4, 64]))).hex()

    def in_page(self):
        return self.iova() + self.pick.choice([0, 0, 1, 0xfc0, 0xfff])

    def ioctl(self, number, fields, behind=b"", file=None):
        size = 4 + sum(len(it) for it in fields)
        return f"ioctl {file or self.file()} {number:x} {(struct.pack('<I', size) + b''.join(fields) + behind).hex()}"

    def opening(self):
        """Steps by which a world comes to stand."""
        u32, u64 = (lambda n: struct.pack("<I", n)), (lambda n: struct.pack("<Q", n % (1 << 64)))
        pages = self.pick.randint(1, 4)
        steps = [f"umap 1 {0x10000 + PAGE * page:x}" for page in range(pages)]
        for _ in range(self.pick.choice([1, 1, 2])):
            self.made("ioas")
            steps.append(self.ioctl(0x3B81, [u32(0), u32(0)], file=1))
        for number in range(1, self.devices + 1):
            self.made("device")
            steps.append(f"bind 1 {number}")
        drives = self.pick.random() < 0.7
        if drives:
            self.made("access")
            steps += ["access 1", f"aattach 1 {self.ids['access'][0]} 1"]
        for page in range(pages):
            fields = [u32(7), u32(1), u32(0), u64(0x10000 + PAGE * page), u64(PAGE), u64(PAGE * (page + 1))]
            steps.append(self.ioctl(0x3B85, fields, file=1))
        if drives:
            steps.append(f"apin 1 {self.ids['access'][0]} 1000 1000 w")
        for number in range(1, self.devices + 1):
            self.made("hwpt")
            steps.append(f"attach {number} {self.pick.choice(self.ids['ioas'])}")
        return steps

    def commands(self):
        u32, u64 = (lambda n: struct.pack("<I", n)), (lambda n: struct.pack("<Q", n % (1 << 64)))
        pick, places = self.pick, self.pick.randint(0, 3)
        ranges = [(start, start + self.length() - 1) for start in (self.iova() for _ in range(pick.randint(0, 3)))]
        spans = b"".join(u64(first) + u64(last) for first, last in ranges)
        whole = pick.random() < 0.1
        return {
            "IOAS_ALLOC": lambda: self.ioctl(0x3B81, [u32(0), u32(0)]),
            "DESTROY": lambda: self.ioctl(0x3B80, [u32(self.object(*self.ids))]),
            "ALLOW_IOVAS": lambda: self.ioctl(
                0x3B82, [u32(self.object("ioas")), u32(len(ranges)), u32(0), u64(0)], spans),
            "COPY": lambda: self.ioctl(0x3B83, [u32(self.flags()), u32(self.object("ioas")), u32(self.object("ioas")),
                                                u64(self.length()), u64(self.iova()), u64(self.iova())]),
            "IOVA_RANGES": lambda: self.ioctl(0x3B84, [u32(self.object("ioas")), u32(places), u32(0), u64(0), u64(0)]),
            "MAP": lambda: self.ioctl(0x3B85, [u32(self.flags()), u32(self.object("ioas")), u32(0), u64(self.memory()),
                                               u64(self.length()), u64(self.iova())]),
            "UNMAP": lambda: self.ioctl(0x3B86, [u32(self.object("ioas")), u64(0 if whole else self.iova()),
                                                 u64((1 << 64) - 1 if whole else self.length())]),
            "HWPT_ALLOC": lambda: self.ioctl(0x3B89, [u32(0), u32(self.object("device")), u32(self.object("ioas")),
                                                      u32(0), u32(0)]),
            "DIRTY_ENABLE": lambda: self.ioctl(
                0x3BF0, [u32(self.object("hwpt")), u32(pick.choice([0, 1, 1, 1])), u32(0)]),
            "DIRTY_REPORT": lambda: self.ioctl(0x3BF1, [u32(self.object("hwpt")), u32(pick.randint(0, 1)), u32(0),
                                                        u64(self.iova()), u64(self.length())]),
        }

    def others(self):
        pick, rw = self.pick, self.pick.choice("rw")
        return {
            "umap": lambda: f"umap {self.user()} {self.memory():x}",
            "uunmap": lambda: f"uunmap {self.user()} {self.memory():x}",
            "uwrite": lambda: f"uwrite {self.user()} {self.memory():x} {self.bytes()}",
            "uread": lambda: f"uread {self.user()} {self.memory():x} {self.pick.randint(1, 64)}",
            "close": lambda: f"close {self.file()}",
            "bind": lambda: f"bind {self.file()} {self.device()}",
            "unbind": lambda: f"unbind {self.file()} {self.object('device')}",
            "attach": lambda: f"attach {self.device()} {self.object('ioas', 'hwpt')}",
            "detach": lambda: f"detach {self.device()}",
            "flush": lambda: f"flush {self.device()}",
            "dread": lambda: f"dread {self.device()} {self.in_page():x} {self.pick.choice([1, 1, 2, 64])}",
            "dwrite": lambda: f"dwrite {self.device()} {self.in_page():x} {self.bytes()}",
            "access": lambda: f"access {self.file()}",
            "aattach": lambda: f"aattach {self.file()} {self.object('access')} {self.object('ioas')}",
            "adetach": lambda: f"adetach {self.file()} {self.object('access')}",
            "apin": lambda: f"apin {self.file()} {self.object('access')} {self.iova():x} {self.length():x} {rw}",
            "aunpin": lambda: f"aunpin {self.file()} {self.object('access')} {self.iova():x} {self.length():x} {rw}",
            "aread": lambda: f"aread {self.file()} {self.object('access')} {self.in_page():x} {pick.randint(1, 2)}",
            "awrite": lambda: f"awrite {self.file()} {self.object('access')} {self.in_page():x} {self.bytes()}",
            "notices": lambda: f"notices {self.file()} {self.object('access')}",
            "held": lambda: f"held {self.user()}",
            "free": lambda: "free",
        }

    # How often each kind comes, beside 2 for all others: what makes a world comes often, what ends it seldom.
    OFTEN = {"umap": 10, "MAP": 12, "COPY": 5, "UNMAP": 7, "flush": 5, "dread": 6, "dwrite": 6,
             "IOAS_ALLOC": 1, "access": 1, "bind": 2, "apin": 5, "aunpin": 4, "close": 0.2, "DESTROY": 1, "detach": 1,
             "unbind": 0.5, "attach": 4, "uunmap": 1}

    # The kinds by which an object of this kind may come.
    MAKING = {"IOAS_ALLOC": "ioas", "bind": "device", "attach": "hwpt", "HWPT_ALLOC": "hwpt", "access": "access"}

    def next(self):
        kinds = {**self.commands(), **self.others()}
        names = [*kinds]
        name = self.pick.choices(names, [self.OFTEN.get(it, 2) for it in names])[0]
        step = kinds[name]()
        if name in self.MAKING and self.pick.random() < 0.3:
            self.made(self.MAKING[name])
        return step


# Steps that ask and make no record; of an ioctl that asks, IOVA_RANGES, and of reports those that don't clear.
ASKING = {"uread", "dread", "aread", "notices", "held", "free"}


def makes_record(step):
    words = step.split()
    if words[0] != "ioctl":
        return words[0] not in ASKING
    if words[2] == "3bf1":
        return bytes.fromhex(words[3])[8] & 1 == 1
    return words[2] != "3b84"


# Causes by which bytes are refused before there is an event.
NO_EVENT = {"25 Number", "22 Short", "7 Tail", "95 Unsupported", "22 Array"}


def carried_out(words, script):
    return subprocess.run(words, input=script.encode(), stdout=subprocess.PIPE, stderr=subprocess.PIPE, timeout=60)


def fault_of(program, beside, steps, script):
    """What is wrong with this script's lines or its journal, if anything is."""
    ran = carried_out([program, "session", "--journal"], script)
    if ran.returncode or ran.stderr:
        return f"status {ran.returncode}, {ran.stderr[:200]!r}"
    lines = ran.stdout.decode().splitlines()
    if len(lines) != len(steps) + 1 or not lines[-1].startswith("journal "):
        return f"{len(steps)} steps have {len(lines)} lines"
    records = sum(makes_record(step) and line not in NO_EVENT for step, line in zip(steps, lines))
    verdict = carried_out([program, "audit"], lines[-1][len("journal "):]).stdout.decode().strip()
    if verdict != f"run {records}":
        return f"the audit says {verdict}, of {records} records"
    if beside:
        others = carried_out(beside, script).stdout.decode().splitlines()
        for number, (step, line, other) in enumerate(zip(steps, lines, others), 1):
            if line != other:
                return f"step {number}, {step}: {line}, and beside it {other}"
    return None


def main():
    words = argparse.ArgumentParser(description=__doc__.splitlines()[0])
    words.add_argument("program")
    words.add_argument("--seconds", type=int, default=60)
    words.add_argument("--seed", type=int, default=1)
    words.add_argument("--steps", type=int, default=120)
    words.add_argument("--beside", nargs=argparse.REMAINDER, default=[])
    given = words.parse_args()
    end, scripts, seed = time.time() + given.seconds, 0, given.seed
    while time.time() < end:
        pick = random.Random(seed)
        head, users, files, devices = head_of(pick)
        steps = Steps(pick, users, files, devices)
        steps = steps.opening() + [steps.next() for _ in range(given.steps)]
        script = "\n".join(head + steps) + "\n"
        fault = fault_of(given.program, given.beside, steps, script)
        if fault:
            with open("failed.script", "w", encoding="ascii") as file:
                file.write(script)
            print(f"seed {seed}: {fault}")
            return 1
        scripts, seed = scripts + 1, seed + 1
    print(f"{scripts} scripts of {given.steps} steps and more, seeds {given.seed} to {seed - 1}: no fault")
    return 0


sys.exit(main())
