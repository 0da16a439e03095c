"""Texts of valid boards, drawn by a random.Random: small ones of up to four buses, in which masters tell one another by
flags, and ones at limits of boards. For tools/oracles/safe-by-definitions.
"""
import os
import sys

sys.path.insert(0, os.path.dirname(os.path.dirname(os.path.realpath(__file__))))

import limits  # noqa: E402

MEBI, WIDE = 0x100000, 1 << 32
VALUES = (0, 1, 1, 2, 3, 0x100, 0xFFFFFFFF)
MASKS = (0xFFFFFFFF, 0xFFFFFFFF, 0xFFFFFFFF, 1, 0xFF, 0xFFFF0000)


def long_text(address):
    return "%08x" % address if address < WIDE else "%08x:%08x" % divmod(address, WIDE)


class Tree:
    """Buses, each with the bus above it, numbered so that those below a bus follow it; and the memory and I/O of each."""

    def __init__(self, rng, parents, is_wide=False, has_io=True):
        self.rng, self.parents, self.is_wide, self.has_io = rng, parents, is_wide, has_io
        self.devices = [0] * len(parents)
        self.agents = [0] * len(parents)
        self.last = list(range(len(parents)))
        for bus in reversed(range(1, len(parents))):
            self.last[parents[bus]] = max(self.last[parents[bus]], self.last[bus])

    def memory(self, bus):
        if bus == 0:
            return 0x00100000
        return (WIDE if self.is_wide else 0) + 0x80000000 + bus * MEBI

    def device(self, bus):
        self.devices[bus] += 1
        return self.devices[bus] - 1

    def bridges(self, has_options=True):
        lines = []
        for bus in range(1, len(self.parents)):
            above, last = self.parents[bus], self.last[bus]
            kind = "pref" if self.is_wide else self.rng.choice(["mem", "pref"])
            words = [f"bridge {bus} on {above} dev {self.device(above)} last {last}"]
            words.append(f"{kind} {long_text(self.memory(bus))} {long_text(self.memory(last) + MEBI - 1)}")
            if self.has_io:
                words.append("io %08x %08x" % (0x1000 * bus, 0x1000 * last + 0xFFF))
            for option, values in (("posted", (1, 2, 8)), ("delayed", (1, 2, 8)), ("abort", (0, 1))):
                if has_options and self.rng.random() < 0.4:
                    words.append(f"{option} {self.rng.choice(values)}")
            lines.append(" ".join(words))
        return lines


class Small:
    """A board of up to four buses, up to four targets and up to five masters."""

    def __init__(self, rng):
        self.rng = rng
        parents = [None]
        for bus in range(1, rng.randint(1, 4)):
            above = bus - 1
            while above and rng.random() < 0.5:
                above = parents[above]
            parents.append(above)
        self.tree = Tree(rng, parents, rng.random() < 0.15, rng.random() < 0.7)
        self.bridges = self.tree.bridges()
        # dwords that programs write and read: of each its space, address, and whether some words follow it in its block
        self.words, self.registers, self.nowhere = [], [], []
        count = rng.randint(1, 4)
        self.targets = [line for number in range(count) for line in self.target(number)]
        self.masters = [(f"m{number}", rng.randrange(len(parents)), []) for number in range(rng.randint(1, min(5, 8 - count)))]
        if rng.random() < 0.2:
            self.draw_any()
        else:
            self.draw_told()

    def target(self, number):
        rng, tree = self.rng, self.tree
        bus = rng.randrange(len(tree.parents))
        device = tree.device(bus)
        memory = tree.memory(bus) + 0x1000 * number
        yield f"target t{number} on {bus} dev {device}"
        if rng.random() < 0.3:
            yield f"id {rng.randrange(0x10000):04x} {rng.randrange(0x10000):04x}"
        if rng.random() < 0.3:
            yield f"stall {rng.randint(1, 3)}"
        if rng.random() < 0.4:
            yield f"burst {rng.randint(1, 8)}"
        yield f"range mem {long_text(memory)} 00001000"
        self.words += [("mem", memory + offset) for offset in rng.sample(range(0, 64, 4), 3)] + [("mem", memory + 0x400)]
        if tree.has_io and rng.random() < 0.6:
            io = 0x1000 * bus + 0x100 * number
            yield f"range io {io:08x} 00000040"
            self.words += [("io", io), ("io", io + 4)]
        if rng.random() < 0.4:
            yield f"abort mem {long_text(memory + 0x800)} 00000040"
            self.nowhere.append(("mem", memory + 0x800))
        for space, address in self.words[-3:]:
            if rng.random() < 0.2:
                yield f"word {space} {long_text(address)} {rng.choice(VALUES):08x}"
        self.registers.append((bus, device))
        self.nowhere.append(("mem", memory + 0x80000))

    # Lines of programs.

    def data(self):
        enables = "" if self.rng.random() < 0.85 else "/%x" % self.rng.randrange(16)
        return "%08x%s" % (self.rng.choice(VALUES), enables)

    def write(self, word, data=None):
        space, address = word
        if space == "io":
            return f"iow {address:08x} {data or self.data()}"
        data = [data] if data else [self.data()]
        room = (64 - address % 64) // 4 - 1
        data += [self.data() for _ in range(min(room, self.rng.choice([0, 0, 0, 0, 1, 2, 7])))]
        return f"{self.rng.choice(['mw', 'mw', 'mw', 'mwi'])} {long_text(address)} {' '.join(data)}"

    def read(self, word):
        space, address = word
        return f"ior {address:08x}" if space == "io" else f"{self.rng.choice(['mr', 'mr', 'mrl', 'mrm'])} {long_text(address)}"

    def poll(self, word, mask, value):
        space, address = word
        keyword = ("iopoll" if space == "io" else "poll") + self.rng.choice(["", "", "", "", "not"])
        return f"{keyword} {long_text(address)} {mask:08x} {value:08x} {self.rng.randint(1, 9)}"

    def register(self):
        bus, device = self.rng.choice(self.registers)
        number = self.rng.choice([0, 1, 1, 3, 4, 15, 15])
        if self.rng.random() < 0.5:
            return f"cfr {bus} {device} {number}"
        return f"cfw {bus} {device} {number} {self.data()}"

    def any_line(self):
        rng = self.rng
        word = rng.choice(self.nowhere if rng.random() < 0.08 else self.words)
        kind = rng.random()
        if kind < 0.38:
            return self.write(word)
        if kind < 0.72:
            return self.read(word)
        if kind < 0.82:
            return self.register()
        mask = rng.choice(MASKS)
        return self.poll(word, mask, rng.choice(VALUES) & (mask if rng.random() < 0.95 else 0xFFFFFFFF))

    def draw_any(self):
        for _, _, lines in self.masters:
            lines += [self.any_line() for _ in range(self.rng.randint(0, 7))]

    def draw_told(self):
        """A word goes round: who has it writes and reads, and tells the next by a flag. Then some lines are moved."""
        rng = self.rng
        flags = rng.sample(self.words, rng.randint(1, min(3, len(self.words))))
        data = [word for word in self.words if word not in flags] or self.words
        who, value = rng.choice(self.masters), 0
        for _ in range(rng.randint(2, 14)):
            kind = rng.random()
            if kind < 0.3:
                who[2].append(self.write(rng.choice(data)))
            elif kind < 0.6:
                who[2].append(self.read(rng.choice(data)))
            else:
                value, flag, other = rng.choice([value + 1, value + 1, value, 1, 0]), rng.choice(flags), rng.choice(self.masters)
                who[2].append(self.write(flag, f"{value:08x}"))
                other[2].append(self.poll(flag, rng.choice(MASKS), value))
                who = other if rng.random() < 0.8 else who
        for _, _, lines in self.masters:
            for _ in range(rng.choice([0, 0, 0, 1, 2])):
                self.move(lines)

    def move(self, lines):
        rng, kind = self.rng, self.rng.random()
        at = rng.randrange(len(lines)) if lines else 0
        if kind < 0.4:
            lines[at : at + 2] = reversed(lines[at : at + 2])
        elif kind < 0.6:
            del lines[at : at + 1]
        else:
            lines.insert(at, self.any_line())

    def text(self):
        rng = self.rng
        lines = ["pciboard 2" if self.tree.is_wide else "pciboard 1", *self.bridges, *self.targets]
        for name, bus, program in self.masters:
            lines += [f"master {name} on {bus}", *program]
        for kind in ("discard", "drop"):
            for _ in range(rng.choice([0, 0, 1, 2]) if self.bridges else 0):
                lines.append(f"{kind} {rng.randint(1, len(self.bridges))} {rng.choice(['down', 'up'])} {rng.randint(1, 4)}")
        return "".join(f"{line}\n" for line in lines)


def small(rng):
    return Small(rng).text()


# Boards at limits.


def board_text(head, programs):
    """Programs are triples of a name, a bus and lines."""
    lines = ["pciboard 1", *head]
    for name, bus, program in programs:
        lines += [f"master {name} on {bus}", *program]
    return "".join(f"{line}\n" for line in lines)


def most_agents(rng):
    """31 bridges, 32 buses with eight agents each: words go round twelve masters each, and some look where they should not."""
    parents = [None]
    for bus in range(1, 32):
        above = bus - 1
        while above and (rng.random() < 0.6 or parents.count(above) > 2):
            above = parents[above]
        parents.append(above if parents.count(above) < 7 else bus - 1)
    tree = Tree(rng, parents, has_io=False)
    head = tree.bridges(has_options=False)
    for bus in range(32):
        head += [f"target t{bus} on {bus} dev {tree.device(bus)}", f"range mem {tree.memory(bus):08x} 00001000"]
    masters = [(f"m{number}", number // 7, []) for number in range(7 * 32)]
    order = rng.sample(masters, len(masters))
    flag_of = lambda number: tree.memory(order[number % len(order)][1]) + 0x40 + 4 * number
    for number, (_, bus, lines) in enumerate(order):
        if number % 12:
            lines.append(f"poll {flag_of(number):08x} ffffffff 00000001 3")
        lines.append(f"mr {tree.memory(number // 12):08x}")
        lines.append(f"mw {tree.memory(number // 12):08x} {number:08x}")
        lines.append(f"mw {flag_of(number + 1):08x} 00000001")
        if rng.random() < 0.05:
            lines.insert(0, f"mr {tree.memory(bus):08x}")
    return board_text(head, masters)


def most_operations(rng):
    """One bus, 7 masters with as many operations as there may be: two tell each other in turn, some write bursts of 8 and read them."""
    head = ["target ram on 0 dev 1", f"burst {rng.randint(1, limits.MOST_DWORDS)}", "range mem 00100000 00010000"]
    ping, pong = [], []
    for turn in range(limits.MOST_OPS // 4):
        # flags of 16 words in turn, so that the word of a flag has few writes
        data, flag = f"{turn + 1:08x}", 4 * (turn % 16)
        ping += [f"mw 00100000 {data}", f"mw {0x100040 + flag:08x} {data}", f"poll {0x100080 + flag:08x} ffffffff {data} 2", "mr 00100004"]
        pong += [f"poll {0x100040 + flag:08x} ffffffff {data} 2", "mr 00100000" if turn < 8 else "mr 00100008", f"mw 00100004 {data}", f"mw {0x100080 + flag:08x} {data}"]
    for lines in (ping, pong):
        lines[64:] = ["mr 0010000c" if line == "mr 00100004" else line for line in lines[64:]]
    programs = [("ping", 0, ping), ("pong", 0, pong)]
    for number in range(5):
        lines = []
        for _ in range(limits.MOST_OPS // 2):
            block = 0x00101000 + 0x1000 * number + 64 * rng.randrange(64)
            lines.append("mw %08x %s" % (block, " ".join("%08x" % rng.randrange(WIDE) for _ in range(limits.MOST_DWORDS))))
            lines.append("mr %08x" % (block + 4 * rng.randrange(limits.MOST_DWORDS)))
        programs.append((f"burst{number}", 0, lines))
    if rng.random() < 0.5:
        del programs[0][2][rng.randrange(limits.MOST_OPS)]
    return board_text(head, programs)


def most_tries(rng):
    """One bridge, as many operations as there may be: a poll of all that are left."""
    left = limits.MOST_TRIES - rng.choice([1, 3, 4])
    head = ["bridge 1 on 0 dev 1 last 1 mem 80000000 800fffff", "target ram on 0 dev 2", "range mem 00100000 00001000"]
    writer = ["mw 00100000 0000002a", "mw 00100040 00000001"][-(limits.MOST_TRIES - left) :]
    reader = [f"poll 00100040 ffffffff 00000001 {left}"] + ["mr 00100000"] * (limits.MOST_TRIES - left - len(writer))
    return board_text(head, [("nic", 1, writer), ("cpu", 0, reader)])


def one_word(rng):
    """60 masters on 16 buses that write and read one word in turn, told or not, in two rounds."""
    tree = Tree(rng, [None] + [0 if bus % 2 else bus - 1 for bus in range(1, 17)], has_io=False)
    head = tree.bridges() + [f"target ram on 0 dev {tree.device(0)}", "range mem 00100000 00001000"]
    masters = [(f"m{number}", number // 4 + 1, []) for number in range(60)]
    is_told = rng.random() < 0.7
    for turn in range(2):
        for number, (_, _, lines) in enumerate(masters):
            place = 60 * turn + number
            if is_told and place and rng.random() < 0.98:
                lines.append(f"poll 00100040 ffffffff {place:08x} 9")
            lines += ["mr 00100000", f"mw 00100000 {place:08x}"]
            if is_told:
                lines.append(f"mw 00100040 {place + 1:08x}")
    return board_text(head, masters)


def most_marks(rng):
    """One bridge, whose completions and requests are lost 1,024 times each, and a flag behind it."""
    head = ["bridge 1 on 0 dev 1 last 1 mem 80000000 800fffff io 00001000 00001fff", "target ram on 0 dev 2"]
    head += ["range mem 00100000 00001000", "range io 00002000 00000040"]
    writer = [f"iow 00002000 {turn:08x}" for turn in range(rng.randint(100, 1000))] + ["mw 00100000 0000002a", "mw 00100040 00000001"]
    reader = ["poll 00100040 ffffffff 00000001 9", "mr 00100000", "ior 00002000"]
    marks = [f"{kind}\n" for number in range(1, 1025) for kind in (f"discard 1 down {number}", f"drop 1 up {number}")]
    return board_text(head, [("nic", 1, writer), ("cpu", 0, reader)]) + "".join(marks)


LIMITS = (most_agents, most_operations, most_tries, one_word, most_marks)
