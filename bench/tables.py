"""The tables of bench/run that look at one thing each: multiples of yardsticks, instructions an event, memory a further event,
how the time grows with what grows, and logs that are observed. Each prints its lines as it has them."""
import importlib.machinery
import importlib.util
import math
import os
import random
import re
import shutil
import subprocess
import sys
import time

sys.dont_write_bytecode = True

BENCH = os.path.dirname(os.path.realpath(__file__))
# The power by which the time of a word may grow; what grows faster is marked.
STEEPEST = 1.1
# Less than so many seconds says nothing of how they grow.
SHORTEST = 0.01
# Words that read a trace, and those that read a board.
OF_A_TRACE = ["check", "finish", "audit", "report", "untagged", "fill", "waves"]
OF_A_BOARD = ["run --steady", "run", "headers"]
# A word and what it reads: the board with no events yet.
FROM_NOTHING = "finish of none"
# Statuses that are right: of `safe` that it found something, of `untagged` that masters are not apart.
FINDS = {"safe": (0, 10), "untagged": (0, 8)}


def module_of(path):
    """The script of this path, as a module."""
    name = os.path.basename(path)
    loader = importlib.machinery.SourceFileLoader(name, path)
    module = importlib.util.module_from_spec(importlib.util.spec_from_loader(name, loader))
    loader.exec_module(module)
    return module


MAKE = module_of(os.path.join(BENCH, "make"))
WORST = module_of(os.path.join(os.path.dirname(BENCH), "tools", "trials", "worst"))
LOGS = module_of(os.path.join(os.path.dirname(BENCH), "tools", "oracles", "run_logs.py"))
# Rounds of seven_buses and seeds of run_logs.py that make logs of some 100,000 lines, of which nearly none, a third and three
# fifths are Retries without effect.
OF_LOGS = [(686, 2), (457, 5), (275, 8)]
# And how often each of them is read for each of the runs.
OF_CLOCKS = 5


def chain(bridges, rounds):
    """A chain of so many bridges, a master at each end that writes and reads at the other end, and a target at each end."""
    lines = ["pciboard 1"]
    lines += [f"bridge {bus} on {bus - 1} dev 1 last {bridges} {MAKE.window(bus, bridges)}" for bus in range(1, bridges + 1)]
    for name, bus in (("top", 0), ("low", bridges)):
        lines += MAKE.target(name, bus, 0, 2)
    for name, bus, at in (("cpu", 0, bridges), ("disk", bridges, 0)):
        lines += [f"master {name} on {bus}", *MAKE.program(rounds, lambda turn, at=at: (at, 0))]
    return "\n".join(lines) + "\n"


def reads(operations):
    """64 masters below 8 bridges that read one memory on bus 0, no two at one address."""
    lines = ["pciboard 1", *(f"bridge {bus} on 0 dev {bus} last {bus} {MAKE.window(bus, bus)}" for bus in range(1, 9))]
    lines += ["target ram on 0 dev 9", "range mem 10000000 00100000"]
    for number in range(64):
        lines.append(f"master m{number} on {number // 8 + 1}")
        lines += [f"mr {0x10000000 + 4 * (turn * 64 + number):08x}" for turn in range(operations // 64)]
    return "\n".join(lines) + "\n"


def lines_of_reads(size):
    """64 masters below 8 bridges with reads at nobody, up to so many bytes, or to 65,536 reads."""
    lines = ["pciboard 1", *(f"bridge {bus} on 0 dev {bus} last {bus}" for bus in range(1, 9))]
    each = (size - 1_300) // 64 // 16
    for number in range(64):
        lines += [f"master m{number} on {number // 8 + 1}", *["mr 00000000 # ."] * min(each, 1024)]
    return "\n".join(lines) + "\n"


def comments(size):
    """A board of nothing but comments, of so many bytes."""
    return "pciboard 1\n" + "# a comment that says nothing\n" * ((size - 11) // 30)


def targets_read(targets):
    """So many targets, up to six of them on each of the buses of an even tree, and ten operations for each."""
    buses = (targets + 5) // 6
    lines, devices = ["pciboard 1"], [1] * buses
    for bus, above, last in sorted(MAKE.tree(0, buses, 3)):
        lines.append(f"bridge {bus} on {above} dev {devices[above]} last {last} {MAKE.window(bus, last)}")
        devices[above] += 1
    for number in range(targets):
        bus, place = divmod(number, 6)
        lines += MAKE.target(f"t{number}", bus, place, devices[bus] + place)
    for half in range(2):
        lines += [f"master m{half} on {half * (buses - 1)}", *MAKE.program(5 * targets, lambda turn: divmod(turn % targets, 6))]
    return "\n".join(lines) + "\n"


class Measured:
    """Calls of a program, in a folder of its own."""

    def __init__(self, program, folder, used, runs, limit):
        self.program, self.folder, self.used, self.runs, self.limit = program, folder, used, runs, limit
        self.out = os.path.join(folder, "out")

    def path(self, name, text=None):
        """A file of this name in the folder, written where a text is given."""
        path = os.path.join(self.folder, name)
        if text is not None:
            with open(path, "w", encoding="ascii") as file:
                file.write(text)
        return path

    def seconds(self, words, limit=None):
        """The least processor time of the runs of a command; none where it takes too long."""
        wanted = FINDS.get(words[1].split()[0] if len(words) > 1 else "", (0,))
        each = [self.used(words, limit or self.limit, self.out, wanted) for _ in range(self.runs)]
        return None if None in each else min(it.ru_utime + it.ru_stime for it in each)

    def clocks(self, *calls):
        """The least time by the clock of each of these commands, that take turns: a machine may change its speed within a minute."""
        least = [math.inf] * len(calls)
        for _ in range(OF_CLOCKS * self.runs):
            for place, words in enumerate(calls):
                with open(self.out, "wb") as file:
                    begun = time.perf_counter()
                    child = os.posix_spawn(words[0], words, os.environ, file_actions=[(os.POSIX_SPAWN_DUP2, file.fileno(), 1)])
                    _, status = os.waitpid(child, 0)
                    took = time.perf_counter() - begun
                least[place] = min(least[place], took) if status == 0 else math.nan
        return least

    def mib(self, words):
        """The most memory of one run, as it is told while it runs: what is told at its end counts what this script had, too."""
        with open(self.out, "wb") as file:
            process = subprocess.Popen(words, stdin=subprocess.DEVNULL, stdout=file, stderr=subprocess.DEVNULL)
        most = 0
        while process.poll() is None:
            most = max(most, memory_of(process.pid))
            time.sleep(0.0005)
        return most / 1024 if process.returncode in FINDS.get(words[1], (0,)) else float("nan")

    def words(self, word, path):
        return [self.program, *word.split(), path]

    def trace_of(self, board, name):
        """The trace of the steady run of a board, and its events; none where it does not end in time."""
        if self.used(self.words("run --steady", board), self.limit, self.out) is None:
            return None, 0
        trace = self.path(name)
        os.replace(self.out, trace)
        return trace, events_of(trace)

    def start_of(self, text, name="start"):
        """The trace of a board in which nothing happened yet."""
        return self.path(name, "pcitrace 1\n" + text + "events\nend 0\n")


def memory_of(number):
    """The most memory that a process had so far, in KiB; 0 where it has none any more."""
    try:
        with open(f"/proc/{number}/status", encoding="ascii") as file:
            return next((int(line.split()[1]) for line in file if line.startswith("VmHWM:")), 0)
    except OSError:
        return 0


def events_of(trace):
    """The number on the last line of a trace."""
    with open(trace, "rb") as file:
        file.seek(-20, os.SEEK_END)
        return int(file.read().split()[-1])


def boards(part=1):
    """The boards of the tables, by name, with a 1/N of their work."""
    return {
        "one bus": MAKE.one_bus(500_000 // part - 1)[0],
        "31 bridges": MAKE.many_agents(max(20 // part, 4), 32, 128),
        "four buses": MAKE.four_buses(98_900 // part, 1024 // part),
        "one dword": MAKE.many_flags(512 // part),
        "chain of 31": chain(31, 1000 // part),
        "reads": reads(65_472 // part),
    }


def yardsticks(measured):
    """Each word as a multiple of `wc -w` and of `cat` of what it read, and of `cat` of what it wrote into a file."""
    print(f"{'multiples of':<16} {'word':<13} {'events':>8} {'seconds':>8} {'wc -w':>7} {'cat':>7} {'written':>7}")
    for name, text in boards().items():
        board = measured.path("board", text)
        trace, events = measured.trace_of(board, "trace")
        for word in OF_A_BOARD + (OF_A_TRACE[:4] if trace else []):
            read = board if word in OF_A_BOARD else trace
            took = measured.seconds(measured.words(word, read))
            if took is None:
                continue
            os.replace(measured.out, measured.path("written"))
            beside = [measured.seconds(words) for words in (["wc", "-w", read], ["cat", read], ["cat", measured.path("written")])]
            shown = " ".join(f"{took / max(it, 0.001):7.1f}" for it in beside)
            print(f"{name:<16} {word:<13} {events:>8} {took:8.3f} {shown}", flush=True)


def instructions_of(words, out):
    """How many instructions a command takes, by valgrind."""
    call = ["valgrind", "--tool=callgrind", "--callgrind-out-file=/dev/null", *words]
    with open(out, "wb") as file:
        said = subprocess.run(call, stdin=subprocess.DEVNULL, stdout=file, stderr=subprocess.PIPE, text=True, check=False).stderr
    for line in said.split("\n"):
        if "Collected :" in line:
            return int(line.split(":")[1].split()[0])
    return None


def instructions(measured):
    """Instructions an event, of each word on a twentieth of each board."""
    if not shutil.which("valgrind"):
        print("instructions: valgrind is not installed")
        return
    words = ["run --steady", "check", "finish", "audit", "untagged"]
    print(f"{'instructions':<16} {'events':>8} " + " ".join(f"{word:>13}" for word in words) + "   an event")
    for name, text in boards(20).items():
        board = measured.path("board", text)
        trace, events = measured.trace_of(board, "trace")
        if not trace:
            continue
        start = measured.start_of(text)
        shown = []
        for word in words:
            read = {"run --steady": board, "finish": start}.get(word, trace)
            took = instructions_of(measured.words(word, read), measured.out)
            shown.append(f"{took / events:13.0f}" if took else f"{'-':>13}")
        print(f"{name:<16} {events:>8} " + " ".join(shown), flush=True)


def memory(measured):
    """Bytes of memory that a further event takes: of half the events and of all on one bus; and MiB of all on each board."""
    words = ["run --steady", "check", "finish", "audit", "untagged", "report"]
    print(f"{'memory':<16} {'events':>8} " + " ".join(f"{word:>13}" for word in words) + "   MiB")
    taken = {}
    for name, text in {"half of one bus": MAKE.one_bus(249_999)[0], **boards()}.items():
        board = measured.path("board", text)
        trace, events = measured.trace_of(board, "trace")
        if not trace:
            continue
        start = measured.start_of(text)
        each = [measured.mib(measured.words(word, {"run --steady": board, "finish": start}.get(word, trace))) for word in words]
        taken[name] = events, each
        print(f"{name:<16} {events:>8} " + " ".join(f"{it:13.1f}" for it in each), flush=True)
    (few, less), (many, more) = taken["half of one bus"], taken["one bus"]
    further = [(after - before) * (1 << 20) / (many - few) for before, after in zip(less, more)]
    print(f"{'a further event':<16} {'':>8} " + " ".join(f"{it:13.1f}" for it in further) + "   bytes", flush=True)


def observe(measured):
    """`observe` of logs of some 100,000 lines, beside `check` of what it writes: seconds by the clock and, of memory, bytes a line."""
    print(f"{'observe':<16} {'fruitless':>9} {'seconds':>8} {'check':>8} {'ratio':>6} {'bytes':>6}   a line")
    for rounds, seed in OF_LOGS:
        trace, _ = measured.trace_of(measured.path("board", MAKE.seven_buses(rounds)), "trace")
        with open(trace, encoding="ascii") as file:
            text = LOGS.log_of(file.read(), random.Random(seed))
        log, lines = measured.path("log", text), text.partition("\nlog\n")[2].count("\n") - 1
        most = measured.mib([measured.program, "observe", log])
        with open(measured.out, encoding="ascii") as file:
            fruitless = re.search(r"(\d+) Retries without effect", file.read()).group(1)
        os.replace(measured.out, measured.path("written"))
        took, checked = measured.clocks(measured.words("observe", log), measured.words("check", measured.path("written")))
        print(f"{lines:>16} {fruitless:>9} {took:8.3f} {checked:8.3f} {took / checked:6.2f} {most * (1 << 20) / lines:6.0f}", flush=True)


def growing():
    """What grows, the three boards or texts, how large each is, and the words that are timed over them. They take some minutes."""
    traced = ["run --steady", "run", *OF_A_TRACE, FROM_NOTHING]
    texts = [1 << 18, 1 << 19, 1 << 20]
    yield "reads", [(size, lines_of_reads(size)) for size in texts], ["headers"]
    yield "comments", [(size, comments(size)) for size in texts], ["headers"]
    yield "events", [(n, MAKE.one_bus(n - 1)[0]) for n in (50_000, 100_000, 200_000)], traced
    yield "operations", [(n, reads(n)) for n in (4_096, 8_192, 16_384)], [*traced, "headers", "combine", "safe", "tree"]
    yield "masters", [(n, MAKE.many_agents(40, 32, n)) for n in (32, 64, 128)], traced
    yield "targets", [(n, targets_read(n)) for n in (48, 96, 192)], traced
    yield "depth", [(n, chain(n, 200)) for n in (8, 16, 31)], traced
    # half of the devices send half as many messages each
    yield "messages", [(16 // part**2, WORST.flags_of_devices(part)) for part in (4, 2, 1)], ["devices", "safe"]
    yield "functions", [(4 // part, WORST.functions(part)) for part in (4, 2, 1)], ["import"]


def growth(measured):
    """Seconds of each word where what it reads is small, larger and largest, and by which power they grow."""
    print(f"{'what grows':<12} {'word':<14} " + " ".join(f"{of:>9}" for of in ("least", "more", "most")) + "   power")
    steep = 0
    for what, sizes, words in growing():
        read = {}
        for place, (_, text) in enumerate(sizes):
            board = measured.path(f"board{place}", text)
            traced = any(word in OF_A_TRACE for word in words)
            trace = measured.trace_of(board, f"trace{place}")[0] if traced else None
            start = measured.start_of(text, f"start{place}") if traced else None
            read[place] = {"board": board, "trace": trace, FROM_NOTHING: start}
        for word in words:
            kind = word if word == FROM_NOTHING else "trace" if word in OF_A_TRACE else "board"
            paths = [read[place][kind] for place in range(len(sizes))]
            if None in paths:
                continue
            called = "finish" if word == FROM_NOTHING else word
            took = [measured.seconds(measured.words(called, path)) for path in paths]
            steep += print_power(what, word, [size for size, _ in sizes], took)
    print(f"steeper than {STEEPEST}: {steep}", flush=True)


def print_power(what, word, sizes, took):
    """A line; whether it is too steep."""
    if None in took:
        print(f"{what:<12} {word:<14} took too long", flush=True)
        return True
    power = math.log(max(took[-1], 0.001) / max(took[0], 0.001)) / math.log(sizes[-1] / sizes[0])
    told = took[-1] >= SHORTEST
    steep = told and power > STEEPEST
    shown = f"{power:7.2f}{'  STEEP' if steep else ''}" if told else "      -"
    print(f"{what:<12} {word:<14} " + " ".join(f"{it:9.3f}" for it in took) + f" {shown}", flush=True)
    return steep
