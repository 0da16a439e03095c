"""Logs of runs: what could have been seen on the buses while a run went on. For tools/oracles/log-of-run and tools/trials/observe-runs.

Each act of the run is a transaction, an arrival is none. Beside them a log has Retries that have no effect: a master asks again
for what it waits for, and a lane for what it holds. Each transaction takes effect at one moment between its two times, and the
moments are in the order of the run; so the times of two buses overlap. How many Retries there are, how long a
transaction takes, in which order the lines of several buses stand, whether opening words are told, and which masters are
threads of one, is drawn from a random.Random. What a log tells is this run, so `observe` must not refuse it; it may be too much
for it (status 5), as where targets cut bursts into more pieces than a bridge holds.
"""
import re

READS = {"poll": "mr", "pollnot": "mr", "iopoll": "ior", "iopollnot": "ior"}
ENDS = ("land", "read", "accept", "take", "tabort", "nobody")
DELAYED_WRITES = ("iow", "cfw")
POSTED = ("mw", "mwi")
# of 1,000 moments between two acts
MOMENT = 1000


class Op:
    """A line of a program: its command as seen on a bus, where it goes, and what it writes."""

    def __init__(self, text):
        words = text.split()
        self.command = READS.get(words[0], words[0])
        self.is_config = self.command.startswith("cf")
        self.place = tuple(map(int, words[1:4])) if self.is_config else long_of(words[1])
        self.words = [] if words[0] in READS else words[4 if self.is_config else 2 :]

    def request(self):
        """What two requests that cannot be told apart have in common."""
        return re.sub("^mr.", "mr", self.command), self.place, tuple(self.words)


class Trace:
    """The text of a trace, of which the board is in its canonical form."""

    def __init__(self, text):
        front, _, behind = text.partition("\nevents\n")
        self.board, self.programs, self.buses, self.devices = [], {}, {}, {}
        for line in front.split("\n")[1:]:
            self.read(line.partition("#")[0].split())
        self.events = [line.split(" ") for line in behind.split("\n") if line and not line.startswith("end ")]

    def read(self, words):
        if not words or words[0] in ("discard", "drop"):
            return
        if words[0] in ("bridge", "target"):
            self.devices.setdefault(int(words[3]), set()).add(int(words[5]))
        if words[0] == "master":
            self.programs[words[1]] = []
            self.buses[words[1]] = words[3]
        elif self.programs:
            self.programs[list(self.programs)[-1]].append(Op(" ".join(words)))
        # what a target is waited for, and how it cuts bursts, is seen in the log
        elif words[0] not in ("stall", "burst"):
            self.board.append(" ".join(words))

    def op(self, name):
        master, index = name.split(".")[:2]
        return self.programs[master][int(index)]


class Seen:
    """A transaction: when it took effect, on which bus, by whom, and the rest of its line."""

    def __init__(self, moment, bus, who, rest):
        self.moment, self.bus, self.who, self.rest = moment, bus, who, rest
        self.start = self.end = None

    def line(self, rng):
        times = f"{self.start}-{self.end}"
        if self.start == self.end and rng.random() < 0.5:
            times = str(self.start)
        return f"{times} {self.bus} {self.who} {self.rest}"


class Asking:
    """What one initiator did on one bus for one operation, from when it could ask: the acts, each with its moment."""

    def __init__(self, begin):
        self.begin, self.acts = begin, []


def long_of(word):
    upper, _, lower = word.rpartition(":")
    return (int(upper, 16) << 32 if upper else 0) | int(lower, 16)


def long_text(address):
    return "%08x" % address if address < 1 << 32 else "%08x:%08x" % divmod(address, 1 << 32)


def log_of(text, rng, asks_early=False):
    """A log of the run in the text of a trace. A lane asks for what its bridge may present; or early, for all that it holds."""
    trace = Trace(text)
    names = joined(trace, rng) if rng.random() < 0.3 else {name: name for name in trace.programs}
    most = rng.choice([0, 1, 1, 3])
    found = [it for key, asking in askings(trace, asks_early) for it in seen(trace, names, key, asking, rng, most)]
    found.sort(key=lambda it: it.moment)
    give_times(found, rng)
    keeps_words = rng.random() < 0.5
    lines = ["pcilog 1", *(it for it in trace.board if keeps_words or not it.startswith("word "))]
    lines += [f"master {name} on {trace.buses[name]}" for name in trace.programs if names[name] == name]
    lines += ["log", *(it.line(rng) for it in in_some_order(found, rng)), "end"]
    return "".join(f"{line}\n" for line in lines)


def joined(trace, rng):
    """Some masters as further threads of an earlier one on their bus, where they never ask for the same."""
    names, asked = {}, {}
    for name, program in trace.programs.items():
        mine = {op.request() for op in program if op.command not in POSTED}
        others = [it for it in asked if trace.buses[it] == trace.buses[name] and not asked[it] & mine]
        names[name] = rng.choice(others) if others and rng.random() < 0.5 else name
        asked.setdefault(names[name], set()).update(mine)
    return names


def askings(trace, asks_early):
    """What belongs together, in order: for each a bus, an initiator and an operation, and its acts. A lane may ask from when the
    posted writes before it have left, or early: from when it has what it asks for."""
    open_ones, found, ended, entered = {}, [], {}, {}
    accepted, left = {}, {}
    for number, words in enumerate(trace.events, start=1):
        if words[1] == "arrive":
            continue
        bus, kind, by, name = words[:4]
        who = name.split(".")[0] if by == "m" else by
        key = (bus, who, name)
        if key not in open_ones:
            begin, older = (ended.get(who, 0), 0) if by == "m" else entered.get((by, name), (0, 0))
            if older and not asks_early:
                begin = max([begin, *left.get(by, [])[:older]])
            open_ones[key] = Asking(begin)
            found.append((key, open_ones[key]))
        open_ones[key].acts.append((number * MOMENT, words))
        if kind in ("latch", "accept"):
            entered[words[4], name] = number * MOMENT, accepted.get(words[4], 0)
        if kind == "accept":
            accepted[words[4]] = accepted.get(words[4], 0) + 1
        if kind in ENDS:
            del open_ones[key]
            ended[who] = number * MOMENT
            if by != "m" and trace.op(name).command in POSTED:
                left.setdefault(by, []).append(number * MOMENT)
    last = (len(trace.events) + 1) * MOMENT
    for asking in open_ones.values():
        asking.acts.append((last, None))
    return found


def seen(trace, names, key, asking, rng, most):
    """The transactions of these acts, with some Retries before the last of them."""
    bus, who, name = key
    op, done = trace.op(name), 0
    who = names.get(who, who)
    before = asking.begin
    for moment, words in asking.acts:
        ends_with_nobody = words and words[1] == "nobody"
        for _ in range(0 if ends_with_nobody else rng.randint(0, most)):
            yield Seen(rng.uniform(before, moment), bus, who, rest_of(trace, op, bus, done, "retry", [], rng))
        before = moment
        if words is None:
            continue
        kind, count = words[1], len(op.words)
        if kind == "part":
            count = done + int(words[5])
        result = {"latch": "retry", "stall": "retry", "tabort": "tabort", "nobody": "nobody"}.get(kind, "done")
        if kind == "take" and words[5] == "abort":
            result = "tabort"
        data = op.words[done:count] if result == "done" else []
        if result == "done" and not op.words:
            data = [words[5]]
        yield Seen(moment, bus, who, rest_of(trace, op, bus, done, result, data, rng))
        done = count if kind == "part" else done


def rest_of(trace, op, bus, done, result, data, rng):
    """COMMAND ADDRESS WORD.. RESULT."""
    if op.is_config and op.place[0] == int(bus):
        device = op.place[1]
        has_no_idsel = device > 15 and device not in trace.devices.get(int(bus), set())
        address = f"{'-' if has_no_idsel else device}.{op.place[2]}"
    elif op.is_config:
        address = ".".join(map(str, op.place))
    else:
        address = long_text(op.place + 4 * done)
    if not data and (op.command in DELAYED_WRITES or op.command in POSTED and result == "retry" and rng.random() < 0.5):
        data = op.words[done : done + 1]
    return " ".join([op.command, address, *data, result])


def give_times(found, rng):
    """A transaction lasts from some time before its moment to some time behind it; those of one bus do not overlap."""
    unit = rng.choice([0.003, 0.03, 1])
    last = {}
    for it in found:
        before = last.get(it.bus)
        if before is None:
            it.start = int(unit * rng.uniform(0, it.moment))
        else:
            cut = sorted(rng.uniform(before.moment, it.moment) for _ in range(2))
            before.end, it.start = (int(unit * time) for time in cut)
        it.end = int(unit * (it.moment + rng.uniform(0, MOMENT)))
        last[it.bus] = it


# Another order of the buses.


class Needs:
    """Which acts of other buses an act needs, as its place among all: what it is about has to have come there."""

    def __init__(self, trace, depths, discards):
        self.trace, self.depths, self.discards = trace, depths, discards
        self.entered, self.left = {}, {}
        self.accepted, self.gone, self.made = {}, {}, {}

    def of(self, place, words):
        kind, by, name = words[1:4]
        found = []
        if by != "m":
            found.append(self.entered[by, name])
        if kind == "take":
            found.append(self.left[words[4], name])
        elif kind == "accept":
            lane = words[4]
            count = self.accepted.setdefault(lane, 0) - self.depths[lane[:-1]]
            found += [self.gone[lane][count]] if count >= 0 else []
            self.accepted[lane] += 1
        elif kind == "latch" and words[4][:-1] in self.discards:
            found += self.made.get(words[4], [])
        self.note(place, kind, by, name, words)
        return found

    def note(self, place, kind, by, name, words):
        if kind in ("accept", "latch"):
            self.entered[words[4], name] = place
        if by != "m" and kind in ENDS:
            self.left[by, name] = place
            ends = self.gone if self.trace.op(name).command in POSTED else self.made
            ends.setdefault(by, []).append(place)


def reordered(text, rng):
    """The trace of a run without its arrivals: each bus does what it did, but earlier or later beside the other buses."""
    front, _, _ = text.partition("\nevents\n")
    trace, depths, discards = Trace(text), {}, set()
    for line in front.split("\n"):
        words = line.split()
        if words[:1] == ["bridge"]:
            depths[words[1]] = int(words[words.index("posted") + 1]) if "posted" in words else 4
        elif words[:1] == ["discard"]:
            discards.add(words[1])
    acts = [it for it in trace.events if it[1] != "arrive"]
    needs, queues = Needs(trace, depths, discards), {}
    for place, words in enumerate(acts):
        queues.setdefault(words[0], []).append((place, needs.of(place, words)))
    haste = {bus: rng.choice([1, 3, 10]) for bus in queues}
    done, order = set(), []
    while any(queues.values()):
        ready = [bus for bus, queue in queues.items() if queue and done.issuperset(queue[0][1])]
        place, _ = queues[rng.choices(ready, [haste[bus] for bus in ready])[0]].pop(0)
        done.add(place)
        order.append(place)
    lines = [front, "events", *(" ".join(acts[place]) for place in order), f"end {len(order)}"]
    return "".join(f"{line}\n" for line in lines)


def in_some_order(found, rng):
    """The lines as they end, as they begin, or bus by bus; those of one bus in their order."""
    places = {id(it): place for place, it in enumerate(found)}
    key = rng.choice([lambda it: it.end, lambda it: it.start, lambda it: int(it.bus)])
    return sorted(found, key=lambda it: (key(it), places[id(it)]))
