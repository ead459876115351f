"""The records of a journal (docs/JOURNAL.md), for programs that show or compare them.

It reads journals that an audit calls a run, and is no part of what is proved.
"""
import sys
from typing import NamedTuple

# The fields of each event by their bytes; b is a burst, e ranges behind their number.
EVENTS = {
    0x01: ("Close", "2"), 0x02: ("UserMap", "28"), 0x03: ("UserUnmap", "28"), 0x04: ("UserWrite", "28b"),
    0x05: ("Bind", "22"), 0x06: ("Unbind", "24"), 0x07: ("Attach", "24"), 0x08: ("Detach", "2"), 0x09: ("Flush", "2"),
    0x0A: ("DeviceWrite", "28b"), 0x0B: ("AccessCreate", "2"), 0x0C: ("AccessAttach", "244"),
    0x0D: ("AccessDetach", "24"), 0x0E: ("AccessPin", "24881"), 0x0F: ("AccessUnpin", "24881"),
    0x10: ("AccessWrite", "248b"), 0x80: ("Destroy", "24"), 0x81: ("IoasAlloc", "2"), 0x82: ("AllowIovas", "24e"),
    0x83: ("Copy", "2444888"), 0x85: ("Map", "244888"), 0x86: ("Unmap", "2488"), 0x89: ("HwptAlloc", "244"),
    0xF0: ("DirtyEnable", "241"), 0xF1: ("DirtyClear", "2488"),
}
REPLIES = {
    0: ("Done", ""), 1: ("Id", "4"), 2: ("Iova", "8"), 3: ("Bytes", "8"), 4: ("Pending", "1"), 5: ("Frame", "4"),
    6: ("Passed", "4"), 7: ("Fault", "1"), 8: ("Refused", "1"), 9: ("Dirty", "8888"),
}


class Record(NamedTuple):
    """Who made it, the name and the fields of its event and of its reply, and all its bytes behind the pass."""

    by: int
    name: str
    event: list
    reply: str
    answer: list
    text: bytes


class Reader:
    """Numbers from the front of bytes, the lowest byte first."""

    def __init__(self, data):
        self.data, self.at = data, 0

    def number(self, size):
        self.at += size
        if self.at > len(self.data):
            sys.exit("the journal is torn")
        return int.from_bytes(self.data[self.at - size : self.at], "little")

    def fields(self, widths):
        return [self.field(width) for width in widths]

    def field(self, width):
        if width == "b":
            return [self.number(1) for _ in range(self.number(1))]
        if width == "e":
            return [(self.number(8), self.number(8)) for _ in range(self.number(4))]
        return self.number(int(width))

    def head(self):
        if self.data[:7] != b"IOFDJNL":
            sys.exit("this is no journal")
        self.at = 8
        self.number(4)
        for size in (8, 2):
            for _ in range(self.number(2)):
                self.number(size)
        for _ in range(self.number(2)):
            self.fields("211")
            for _ in range(self.number(2)):
                self.fields("88")
        self.number(2)

    def record(self):
        by, start = self.number(2), self.at
        tag = self.number(1)
        if tag not in EVENTS:
            sys.exit(f"the journal has an event of number {tag:02x}, which isn't known here")
        name, widths = EVENTS[tag]
        event = self.fields(widths)
        reply, of = REPLIES[self.number(1)]
        answer = self.fields(of)
        for _ in range(2):
            for _ in range(self.number(2)):
                self.number(4)
        return Record(by, name, event, reply, answer, self.data[start : self.at])


def records(data):
    """The records of a journal, one after another."""
    reader = Reader(data)
    reader.head()
    while reader.at < len(data):
        yield reader.record()
