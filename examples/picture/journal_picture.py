#!/usr/bin/env python3
"""Draws a journal as an SVG page.

    iommufd session --journal < script | journal_picture.py > page.svg

It reads the output of a session, or the digits of a journal alone. From left to right stand the records. Each address
space is a row: an area is a bar from the record that mapped it to the one by which it went, lighter as long as it is
leaving; a pin of an access object is a line in its bar; a device's write is a dot, and one that was denied a red cross.
It reads journals that an audit calls a run, and is no part of what is proved.
"""
import sys
from html import escape

sys.dont_write_bytecode = True

from journal_reader import records

STEP, BAR, GAP, LEFT, TOP = 26, 18, 6, 190, 34


class Area:
    def __init__(self, first, length, at):
        self.first, self.last, self.start, self.leaves, self.end = first, first + length - 1, at, None, None
        self.pins = []

    def meets(self, first, last):
        return self.first <= last and first <= self.last


class Space:
    """An address space: the areas that it has had, and marks of what was written by it."""

    def __init__(self, file, number, at):
        self.name, self.start, self.end, self.areas, self.marks = f"file {file}, address space {number}", at, None, [], []

    def there(self):
        return [area for area in self.areas if area.end is None]


class Picture:
    def __init__(self):
        self.spaces, self.rows, self.over, self.bound, self.by, self.access = {}, [], {}, {}, {}, {}
        self.count = 0

    def take(self, at, record):
        step = getattr(self, record.name.lower(), None)
        if step and (record.reply != "Refused" or record.name == "DeviceWrite"):
            step(at, record.event, record.reply, record.answer)
        self.count = at + 1

    def ioasalloc(self, at, event, reply, answer):
        space = self.spaces[event[0], answer[0]] = Space(event[0], answer[0], at)
        self.rows.append(space)

    def map(self, at, event, reply, answer):
        file, _, ioas, _, length, _ = event
        self.spaces[file, ioas].areas.append(Area(answer[0], length, at))

    def copy(self, at, event, reply, answer):
        file, _, to, _, length, _, _ = event
        self.spaces[file, to].areas.append(Area(answer[0], length, at))

    def unmap(self, at, event, reply, answer):
        file, ioas, first, length = event
        last = 2**64 - 1 if first == 0 and length == 2**64 - 1 else first + length - 1
        for area in self.spaces[file, ioas].there():
            if area.meets(first, last):
                if reply == "Pending":
                    area.leaves = at if area.leaves is None else area.leaves
                else:
                    area.end = at

    def hwptalloc(self, at, event, reply, answer):
        self.over[event[0], answer[0]] = event[2]

    def bind(self, at, event, reply, answer):
        self.bound[event[1]] = event[0]

    def attach(self, at, event, reply, answer):
        device, target = event
        file = self.bound[device]
        self.by[device] = (file, self.over.setdefault((file, answer[0]), target))

    def detach(self, at, event, reply, answer):
        self.by.pop(event[0], None)

    def accessattach(self, at, event, reply, answer):
        self.access[event[0], event[1]] = (event[0], event[2])

    def accesspin(self, at, event, reply, answer):
        file, access, first, length, write = event
        for area in self.spaces[self.access[file, access]].there():
            if area.meets(first, first + length - 1):
                area.pins.append([access, first, length, write, at, None])

    def accessunpin(self, at, event, reply, answer):
        file, access, first, length, write = event
        for area in self.spaces[self.access[file, access]].areas:
            for pin in area.pins:
                if pin[:4] == [access, first, length, write] and pin[5] is None:
                    pin[5] = at
                    break

    def devicewrite(self, at, event, reply, answer):
        space = self.spaces.get(self.by.get(event[0]))
        if space:
            space.marks.append((at, event[1], f"device {event[0]}", reply == "Passed"))

    def accesswrite(self, at, event, reply, answer):
        space = self.spaces.get(self.access.get((event[0], event[1])))
        if space:
            space.marks.append((at, event[2], f"access object {event[1]}", True))

    def destroy(self, at, event, reply, answer):
        self.end_space(at, tuple(event))

    def close(self, at, event, reply, answer):
        for key in [key for key in self.spaces if key[0] == event[0]]:
            self.end_space(at, key)

    def end_space(self, at, key):
        space = self.spaces.pop(key, None)
        if space:
            space.end = at
            for area in space.there():
                area.end = at

    # ---- drawing

    def x(self, at):
        return LEFT + STEP * (self.count if at is None else at)

    def draw(self):
        parts, y = [], TOP
        for space in self.rows:
            spans = sorted({(area.first, area.last) for area in space.areas})
            height = max(1, len(spans)) * (BAR + GAP) + GAP + 8
            parts.append(f'<rect class="space" x="{self.x(space.start)}" y="{y}" '
                         f'width="{self.x(space.end) - self.x(space.start)}" height="{height}"/>')
            parts.append(f'<text x="8" y="{y - 5}">{escape(space.name)}</text>')
            lines = {span: y + GAP + place * (BAR + GAP) for place, span in enumerate(spans)}
            for span, line in lines.items():
                parts.append(f'<text class="span" x="{LEFT - 8}" y="{line + 13}">{span[0]:x}-{span[1]:x}</text>')
            for area in space.areas:
                parts += self.draw_area(area, lines[area.first, area.last])
            for mark in space.marks:
                parts.append(self.draw_mark(space, mark, lines, y + height - 6))
            y += height + 26
        width = self.x(None) + 20
        ticks = [f'<text class="tick" x="{self.x(at) + STEP / 2}" y="{y - 4}">{at}</text>'
                 for at in range(0, self.count, 5)]
        return (f'<svg xmlns="http://www.w3.org/2000/svg" width="{width}" height="{y + 8}">\n<style>{STYLE}</style>\n'
                f'<rect width="100%" height="100%" fill="#fff"/>\n' + "\n".join(parts + ticks) + "\n</svg>\n")

    def draw_area(self, area, line):
        live = area.leaves if area.leaves is not None else area.end
        yield (f'<rect class="live" x="{self.x(area.start)}" y="{line}" '
               f'width="{self.x(live) - self.x(area.start)}" height="{BAR}"/>')
        if area.leaves is not None:
            yield (f'<rect class="leaving" x="{self.x(area.leaves)}" y="{line}" '
                   f'width="{self.x(area.end) - self.x(area.leaves)}" height="{BAR}"/>')
        for pin in area.pins:
            yield (f'<path class="pin" d="M{self.x(pin[4])} {line + BAR - 3}H{self.x(pin[5])}">'
                   f'<title>access object {pin[0]}</title></path>')

    def draw_mark(self, space, mark, lines, floor):
        at, address, who, passed = mark
        here = [lines[area.first, area.last] for area in space.areas
                if area.meets(address, address) and area.start <= at and (area.end is None or at < area.end)]
        x, y = self.x(at) + STEP / 2, here[0] + BAR / 2 - 2 if here else floor
        title = f"<title>record {at}: {who} at {address:x}</title>"
        if passed:
            return f'<circle class="write" cx="{x}" cy="{y}" r="4">{title}</circle>'
        return f'<path class="fault" d="M{x - 4} {y - 4}l8 8m0 -8l-8 8">{title}</path>'


STYLE = (
    "text{font:12px sans-serif;fill:#333}.span{font:11px monospace;text-anchor:end}.tick{font-size:10px;fill:#888;"
    "text-anchor:middle}.space{fill:#f4f4f1;stroke:#ccc}.live{fill:#5b8fb9}.leaving{fill:#c9dbe8;stroke:#5b8fb9;"
    "stroke-dasharray:3 2}.pin{stroke:#e0a030;stroke-width:3}.write{fill:#183a55}.fault{stroke:#c62828;stroke-width:2.5}"
)


def main():
    words = sys.stdin.read().split()
    digits = words[words.index("journal") + 1] if "journal" in words else "".join(words)
    picture = Picture()
    for at, record in enumerate(records(bytes.fromhex(digits))):
        picture.take(at, record)
    sys.stdout.write(picture.draw())


main()
