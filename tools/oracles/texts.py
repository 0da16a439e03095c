"""Boards and traces as the second programs read them: what a text that the program takes says, and where a request goes on
a board. It refuses nothing. (fronts reads each text by itself, since it says what is refused; observe-by-definitions logs.)
"""
import os
import sys

sys.path.insert(0, os.path.dirname(os.path.dirname(os.path.realpath(__file__))))

import limits  # noqa: E402

READS = ("mr", "mrl", "mrm", "ior", "cfr")
WRITES = ("mw", "mwi", "iow", "cfw")
POLLS = ("poll", "iopoll", "pollnot", "iopollnot")


def long_of(word):
    """A HEX, or the two halves of a LONG."""
    upper, _, lower = word.rpartition(":")
    return (int(upper, 16) << 32 if upper else 0) | int(lower, 16)


def phase_of(word):
    """A data phase: its value, and the mask of the bytes that it enables."""
    value, _, enables = word.partition("/")
    bits = int(enables or "f", 16)
    return int(value, 16), sum(0xFF << 8 * byte for byte in range(4) if bits >> byte & 1)


class Op:
    """An operation: what it is, where it goes, and (`settle`) where its way ends and what words it names."""

    def __init__(self, words):
        self.kind = words[0]
        self.is_poll, self.is_write, self.is_read = (self.kind in them for them in (POLLS, WRITES, READS))
        self.space = {"i": "io", "c": "cfg"}.get(self.kind[0], "mem")
        self.phases = []
        if self.space == "cfg":
            self.bus, self.device, self.register = (int(word) for word in words[1:4])
            self.address = 4 * self.register
            data = words[4:]
        else:
            self.address = long_of(words[1])
            data = words[2:]
        if self.is_poll:
            self.mask, self.wanted, self.tries = int(data[0], 16), int(data[1], 16), int(data[2])
            self.differs = self.kind in ("pollnot", "iopollnot")
        elif self.is_write:
            self.phases = [phase_of(word) for word in data]
        self.is_posted = self.kind in ("mw", "mwi")

    def is_met_by(self, value):
        """Whether a poll waits for this value."""
        return (value & self.mask == self.wanted) != self.differs

    def request(self):
        """What is the same of two delayed requests that a lane takes for one."""
        command = {"poll": "mr", "pollnot": "mr", "mrl": "mr", "mrm": "mr", "iopoll": "ior", "iopollnot": "ior"}.get(self.kind, self.kind)
        place = (self.bus, self.device) if self.space == "cfg" else ()
        return command, place, self.address, tuple(self.phases)


class Board:
    def __init__(self, lines):
        self.bridges, self.targets, self.masters, self.marks = [], [], [], []
        for line in lines:
            words = line.partition("#")[0].split()
            if words and words[0] not in ("pciboard", "pcitrace"):
                self.add(words[0], words[1:])

    def add(self, kind, words):
        if kind == "bridge":
            self.bridges.append(bridge_of(words))
        elif kind == "header":
            self.bridges.append(bridge_of_header(int(words[0]), bytes.fromhex(words[1])))
        elif kind == "target":
            place = dict(name=words[0], bus=int(words[2]), dev=int(words[4]), id=(0x1234, 1))
            self.targets.append(dict(place, range=[], abort=[], word={}, stall=0, burst=limits.MOST_DWORDS))
        elif kind == "id":
            self.targets[-1]["id"] = (int(words[0], 16), int(words[1], 16))
        elif kind in ("range", "abort"):
            self.targets[-1][kind].append((words[0], long_of(words[1]), long_of(words[2])))
        elif kind == "word":
            self.targets[-1]["word"][words[0], long_of(words[1])] = int(words[2], 16)
        elif kind == "master":
            self.masters.append(dict(name=words[0], bus=int(words[2]), ops=[]))
        elif kind in ("stall", "burst"):
            self.targets[-1][kind] = int(words[0])
        elif kind in ("discard", "drop"):
            self.marks.append(kind)
        else:
            self.masters[-1]["ops"].append(Op([kind, *words]))

    def buses(self):
        return sorted([0, *(bridge["bus"] for bridge in self.bridges)])

    # Where a request goes.

    def claim(self, bus, op):
        """Who answers on this bus: a target, "header", "nobody", or the next bus with the lane to it."""
        if op.space == "cfg":
            return self.claim_configuration(bus, op)
        for target in self.targets:
            if target["bus"] == bus and is_in(target["range"], op):
                return target
        for bridge in self.bridges:
            if bridge["parent"] == bus and is_decoded(bridge, op):
                return bridge["bus"], (bridge["bus"], "d")
        for bridge in self.bridges:
            if bridge["bus"] == bus and not is_decoded(bridge, op):
                return bridge["parent"], (bus, "u")
        return "nobody"

    def claim_configuration(self, bus, op):
        if op.bus == bus:
            for target in self.targets:
                if (target["bus"], target["dev"]) == (bus, op.device):
                    return target
            is_header = any((it["parent"], it["dev"]) == (bus, op.device) for it in self.bridges)
            return "header" if is_header else "nobody"
        for bridge in self.bridges:
            if bridge["parent"] == bus and bridge["bus"] <= op.bus <= bridge["last"]:
                return bridge["bus"], (bridge["bus"], "d")
        return "nobody"

    def way(self, bus, op):
        """The lanes that it goes, and who claims it at the end."""
        lanes = []
        while True:
            claimed = self.claim(bus, op)
            if not isinstance(claimed, tuple):
                return lanes, claimed
            bus, lane = claimed
            lanes.append(lane)


def is_in(ranges, op):
    return any(space == op.space and base <= op.address < base + size for space, base, size in ranges)


def is_decoded(bridge, op):
    windows = ("mem", "pref") if op.space == "mem" else ("io",)
    return any(name in bridge and bridge[name][0] <= op.address <= bridge[name][1] for name in windows)


def bridge_of(words):
    bridge = dict(bus=int(words[0]), parent=int(words[2]), dev=int(words[4]), last=int(words[6]))
    rest = words[7:]
    while rest:
        if rest[0] in ("mem", "pref", "io") and rest[1] != "none":
            bridge[rest[0]] = (long_of(rest[1]), long_of(rest[2]))
            rest = rest[3:]
        else:
            rest = rest[2:]
    return bridge


def bridge_of_header(device, header):
    """By the bytes of its configuration header. A base above its limit is a closed window."""
    half = lambda at: header[at] | header[at + 1] << 8
    bridge = dict(bus=header[0x19], parent=header[0x18], dev=device, last=header[0x1A])
    bridge["mem"] = (half(0x20) & 0xFFF0) << 16, (half(0x22) & 0xFFF0) << 16 | 0xFFFFF
    is_wide = header[0x24] & 15 == 1
    upper = lambda at: (half(at) | half(at + 2) << 16) << 32 if is_wide else 0
    bridge["pref"] = (half(0x24) & 0xFFF0) << 16 | upper(0x28), (half(0x26) & 0xFFF0) << 16 | 0xFFFFF | upper(0x2C)
    far = lambda at: half(at) << 16 if header[0x1C] & 15 == 1 else 0
    bridge["io"] = (header[0x1C] & 0xF0) << 8 | far(0x30), (header[0x1D] & 0xF0) << 8 | 0xFFF | far(0x32)
    return bridge


class Trace:
    """The board of a trace, its events as lists of words, and its programs by the names of their masters."""

    def __init__(self, text):
        lines = text.split("\n")
        at = lines.index("events")
        self.board = Board(lines[2:at])
        self.events = [line.split(" ") for line in lines[at + 1 :] if line and not line.startswith("end ")]
        self.programs = {master["name"]: master["ops"] for master in self.board.masters}

    def op(self, name):
        """The operation of this name, or of this try of it."""
        master, index = name.split(".")[:2]
        return self.programs[master][int(index)]
