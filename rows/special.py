"""The rows that are no line of a table: each a function of a place (rowing.Place), with its cases: a name, what was seen, and
what was wanted. ROWS has them; scripts() the scripts that count rows of their own.
"""
import hashlib
import os
import re
import shutil
import subprocess
import tempfile

from rowing import PROGRAM, Seen, Wanted, called, first_line

ROWS = []


def row(name):
    def kept(function):
        ROWS.append((name, function))
        return function

    return kept


def seen_as(seen, out):
    """What was seen, with another text in place of its standard output."""
    return Seen(seen.status, out, seen.error)


# The threads of `run`, twenty times on one board: each trace is a complete run.


def threads_row(time):
    def threads(place):
        whole = place.call("run", "boards/host_disk_and_network.board")
        seen = place.call("check", place.file("whole", whole.out)) if whole.status == 0 else whole
        yield f"threads_time_{time}", seen.cut(16), Wanted(0, b"complete run of ", "-")

    return f"threads_time_{time}", threads


ROWS += [threads_row(time) for time in range(1, 21)]


# Boards on which a driver and a device poll what is beside them, twenty times each: `run` spends the tries of none.


def polls_row(name, *words):
    def polls(place):
        whole = place.call(*words)
        seen = place.call("report", place.file("whole", whole.out)) if whole.status == 0 else whole
        spent = [line for line in seen.out.splitlines(True) if b" spent " in line]
        yield name, seen_as(seen, b"".join(spent)), Wanted(0, b"", "-")

    return name, polls


for board in "ahci", "nvme", "virtio", "xhci":
    ROWS += [polls_row(f"polls_of_{board}_time_{time}", "run", f"threads/{board}.board") for time in range(1, 21)]


# The devices of docs/cookbook.md that are right: `run --steady` spends the tries of no poll.

DEVICES = "8139", "ahci", "dma-stop", "doorbell", "e1000", "mailbox", "msi", "nvme", "peer", "virtio", "xhci"
for board in DEVICES:
    ROWS.append(polls_row(f"polls_of_device_{board}", "run", "--steady", f"../boards/devices/{board}.board"))


@row("devices_together")
def devices_together(place):
    boards = sorted(os.path.join("../boards/devices", it) for it in os.listdir("../boards/devices") if it.endswith(".board"))
    out = b"".join(it.encode() + b":\n" + place.read(it.removesuffix(".board") + ".safe") for it in boards)
    yield "devices_together", place.call("safe", *boards), Wanted(10, out, f"{boards[0]}: pcitree: 2 unsafe, 0 lost, 0 vain")


# Inputs of just as many bytes as they may have, and of one more: the room is filled with comments.


def filled(text, before, size):
    """The text with comments before this line, or behind all where there is no such line, of so many bytes in all."""
    at = text.find(b"\n" + before.encode() + b"\n") + 1 or len(text)
    left = size - len(text)
    comments = (b"# " + b"0" * 61 + b"\n") * (left // 64)
    rest = b" " * (left % 64 - 1) + b"\n" if left % 64 else b""
    return text[:at] + comments + rest + text[at:]


@row("board_of_the_limit")
def board_of_the_limit(place):
    text = place.read("boards/one_word.board")
    large = place.file("large", filled(text, "master cpu on 0", 1 << 20))
    yield "board_of_the_limit", place.call("run", "--steady", large), Wanted(0, place.read("boards/one_word.trace"), "-")
    large = place.file("large", filled(text, "master cpu on 0", (1 << 20) + 1))
    past = {"board_past_the_limit": ["run", "--steady"], "safe_of_a_board_past_the_limit": ["safe"], "lspci_past_the_limit": ["import"]}
    for name, words in past.items():
        yield name, place.call(*words, large), Wanted(5, b"", "pcitree: input too long")
    large = place.file("large", filled(place.read("../boards/early.board"), "master nic on 1", 1 << 20))
    wanted = Wanted(10, place.read("safe/early.safe"), "pcitree: 1 unsafe, 0 lost, 0 vain")
    yield "safe_of_a_board_of_the_limit", place.call("safe", large), wanted


@row("trace_of_the_limit")
def trace_of_the_limit(place):
    text = place.read("boards/one_word.trace")
    large = place.file("large", filled(text, "events", 1 << 26))
    yield "trace_of_the_limit", place.call("check", large), Wanted(0, b"complete run of 2 events, bound 2\n", "-")
    large = place.file("large", filled(text, "events", (1 << 26) + 1))
    yield "trace_past_the_limit", place.call("check", large), Wanted(5, b"", "pcitree: input too long")


@row("log_of_the_limit")
def log_of_the_limit(place):
    text = place.read("observe/no_lines.log")
    large = place.file("large", filled(text, "log", 1 << 26))
    seen = place.call("observe", large)
    yield "log_of_the_limit", seen.cut(11), Wanted(0, b"pcitrace 1\n", "-")
    large = place.file("large", filled(text, "log", (1 << 26) + 1))
    for name, words in ("log_past_the_limit", ["observe"]), ("acts_of_a_log_past_the_limit", ["observe", "--acts"]):
        yield name, place.call(*words, large), Wanted(5, b"", "pcitree: input too long")


@row("log_of_too_many_events")
def log_of_too_many_events(place):
    """Eight masters, each of which posts 1,020 writes to a target behind 31 bridges: more events than a run may have."""
    board = [f"bridge {bus} on {bus - 1} dev 1 last 31 mem 80000000 800fffff posted 8" for bus in range(1, 32)]
    board += ["target ram on 31 dev 1", "range mem 80000000 00001000", *(f"master m{number} on 0" for number in range(8))]
    log = [f"{time} 0 m{time % 8} mw 80000000 00000001 done" for time in range(8160)]
    lines = ["pcilog 1", "pciboard 1", *board, "log", *log, "end"]
    seen = place.call("observe", place.file("large", "".join(f"{line}\n" for line in lines).encode()))
    wanted = f"pcitree: log line {len(lines) - 1} is too much: O4"
    yield "log_of_too_many_events", seen, Wanted(5, b"", wanted)


@row("refused_at_the_end_of_64_mib")
def refused_at_the_end(place):
    """A read that is stalled 499,999 times and then gives another value, behind comments that fill the length."""
    comments = (b"#" + b"0" * 98 + b"\n") * 571087 + b"#" + b"0" * 23 + b"\n"
    events = b"0 stall m cpu.0 ram\n" * 499999 + b"0 read m cpu.0 ram 00000001\nend 500000\n"
    text = b"pcitrace 1\n" + place.read("boards/stalled.board") + comments + b"events\n" + events
    wanted = Wanted(8, b"", "pcitree: event 500000 is not allowed: N2")
    yield "refused_at_the_end_of_64_mib", place.call("check", place.file("large", text)), wanted


@row("refused_among_empty_lines")
def refused_among_empty_lines(place):
    """A board of 1 MiB, most of it empty lines, of which two devices meet: the lines that matter are found at once."""
    text = b"pciboard 1\ntarget a on 0 dev 9\ntarget b on 0 dev 9\n" + b"\n" * 1048500
    seen = place.call("headers", place.file("large", text), timeout=2)
    yield "refused_among_empty_lines", seen, Wanted(6, b"", "pcitree: board line 0 fault V7")


# The header of a bridge: which registers say its windows, which bytes are none of a bridge, and which windows they say. All by hand.

HEADER = (
    "34 12 00 01 07 00 00 00 00 00 04 06 00 00 01 00 00 00 00 00 00 00 00 00 00 01 02 00 f1 01 00 00 "
    "00 80 10 80 f0 ff" + 26 * " 00"
)
# What stands behind `bridge 1 on 0 dev 1 last 2`, and the bytes from an offset on.
SHOWN = [
    ("io 00000000 00000fff", 0x1C, "01 01"),
    ("io 00000000 00000fff", 0x30, "00 00 00 00"),
    ("io 00001000 00001fff", 0x1C, "11 11"),
    ("io 00001000 00001fff", 0x30, "00 00 00 00"),
    ("io 0000f000 00011fff", 0x1C, "f1 11"),
    ("io 0000f000 00011fff", 0x30, "00 00 01 00"),
    ("io fffff000 ffffffff", 0x1C, "f1 f1"),
    ("io fffff000 ffffffff", 0x30, "ff ff ff ff"),
    ("mem 00000000 000fffff", 0x20, "00 00 00 00"),
    ("mem 7ff00000 800fffff", 0x20, "f0 7f 00 80"),
    ("mem fff00000 ffffffff", 0x20, "f0 ff f0 ff"),
    ("pref 80000000 800fffff", 0x24, "00 80 00 80 00 00 00 00 00 00 00 00"),
    ("pref 00000001:00000000 00000001:000fffff", 0x24, "01 00 01 00 01 00 00 00 01 00 00 00"),
    ("pref fff00000 00000001:000fffff", 0x24, "f1 ff 01 00 00 00 00 00 01 00 00 00"),
    ("pref 00000000 ffffffff:ffffffff", 0x24, "01 00 f1 ff 00 00 00 00 ff ff ff ff"),
    ("abort 1", 0x3E, "20 00"),
]
# Bytes from an offset on in place of those of HEADER, and the fault of the header, if it has one.
TAKEN = [
    (0x0E, "81", None),
    (0x3E, "b3 ff", None),
    (0x00, "00 00 00 00 07 02 a0 02 ff ff ff ff ff ff", None),
    (0x0E, "00", "H1"),
    (0x0E, "02 00 00 00 00 00 00 00 00 00 01 00", "H1"),
    (0x04, "06 00 00 00 00 00 00 00 00 00 02", "H1"),
    (0x04, "06", "H2"),
    (0x04, "05", "H2"),
    (0x04, "03", "H2"),
    (0x3E, "04", "H2"),
    (0x3E, "08", "H2"),
    (0x3E, "40", "H2"),
    (0x04, "00 00 00 00 00 00 00 00 00 00 01 00 00 00 00 00 00 00 00 00 01", "H2"),
    (0x18, "01 01 02", "H3"),
    (0x18, "00 03 02", "H3"),
]
# The same, and the window that `tree` tells: a base above its limit and ignored nibbles; upper halves, which stand where the
# low nibble of the base is 1, whatever that of the limit.
WINDOWS = [
    (0x20, "f0 ff 00 00", ""),
    (0x20, "10 80 00 80", ""),
    (0x20, "0f 80 1f 80", " mem 80000000-801fffff"),
    (0x24, "11 00 10 00 01 00 00 00 02 00 00 00", " pref 00000001:00100000-00000002:001fffff"),
    (0x24, "10 00 11 00 01 00 00 00 02 00 00 00", " pref 00100000-001fffff"),
    (0x24, "13 00 11 00 01 00 00 00 02 00 00 00", " pref 00100000-001fffff"),
    (0x24, "01 00 01 00 02 00 00 00 01 00 00 00", ""),
    (0x1C, "11 10", " io 00011000-00021fff"),
    (0x1C, "10 11", " io 00001000-00001fff"),
    (0x1C, "21 11", " io 00012000-00021fff"),
    (0x1C, "20 10", ""),
]


def header_with(changes):
    """A board of one header, with bytes in place of those of HEADER."""
    header = bytearray.fromhex(HEADER)
    for offset, changed in changes:
        found = bytes.fromhex(changed)
        header[offset : offset + len(found)] = found
    return f"pciboard 2\nheader 1 {header.hex()}\n".encode()


@row("header_shows")
def header_shows(place):
    for option, offset, registers in SHOWN:
        board = place.file("shown.board", f"pciboard 2\nbridge 1 on 0 dev 1 last 2 {option}\n".encode())
        seen = place.call("headers", board)
        shown = bytes.fromhex("".join(line.partition(":")[2] for line in seen.out.decode().split("\n")))
        found = shown[offset : offset + len(registers.split())].hex(" ")
        yield f"header_shows_{option}_at_{offset:02x}", seen_as(seen, found.encode()), Wanted(0, registers.encode(), "-")


@row("header_of_a_bridge_or_none")
def header_of_a_bridge_or_none(place):
    for offset, changed, fault in TAKEN:
        seen = place.call("headers", place.file("taken.board", header_with([(offset, changed)])))
        wanted = Wanted(6, b"", f"pcitree: board line 2 fault {fault}") if fault else Wanted(0, b"bridge 1\n", "-")
        yield f"header_with_{changed}_at_{offset:02x}", seen.cut(9), wanted


@row("header_says_windows")
def header_says_windows(place):
    for offset, changed, told in WINDOWS:
        closed = [(0x1C, "f1 01"), (0x20, "f0 ff 00 00"), (0x24, "f0 ff 00 00"), (0x30, "01 00 02 00" if offset == 0x1C else "00 00 00 00")]
        seen = place.call("tree", place.file("windows.board", header_with([*closed, (offset, changed)])))
        wanted = f"bus 0\n  bridge 1 dev 1{told}\n".encode()
        yield f"header_says_{changed}_at_{offset:02x}", seen, Wanted(0, wanted, "-")


# What lspci wrote of some 650 KB, of which the text with its comments would be longer than 1 MiB; of 4,800 devices and of 4,800
# bridges, each told of on a small stack; and slot lines alone, no two alike, whose time does not grow with the square.


def told(bus, device, number, kind, register, rest):
    return (
        f"{bus:02x}:{device:02x}.{number:x} x\n"
        f"00: 34 12 01 00 07 00 00 00 00 00 80 05 00 00 {kind:02x} 00\n"
        f"10: {register} {register} {rest}\n"
        f"20: {register} {register} 00 00 00 00 00 00 00 00\n"
        "30: 00 00 00 00 00 00 00 00 00 00 00 00 00 00 00 00\n"
    )


def machine(buses, devices, functions, kind, is_joined):
    """Devices of so many functions on each bus, of this header type, where a bridge 1f.0 may lead to the next bus."""
    lines = []
    for bus in range(buses):
        for device in range(devices):
            for number in range(functions):
                lines.append(told(bus, device, number, kind, "00 00 00 10", "00 00 00 10 00 00 00 10"))
        if is_joined and bus < buses - 1:
            lines.append(told(bus, devices, 0, 1, "00 00 00 00", f"{bus:02x} {bus + 1:02x} {buses - 1:02x} 00 00 00 00 00"))
    return "".join(lines).encode()


@row("import_longer_than_a_board")
def import_longer_than_a_board(place):
    seen = place.call("import", "/dev/stdin", stdin=None, input=machine(12, 31, 8, 0, True))
    yield "import_longer_than_a_board", seen, Wanted(6, b"", "pcitree: import line 0 fault I5")


@row("import_on_a_small_stack")
def import_on_a_small_stack(place):
    for kind, ranges in (0, 192), (1, 0):
        large = place.file("large", machine(150, 32, 1, kind, False))
        seen = called(["bash", "-c", 'ulimit -s 512 && exec "$0" import "$1"', PROGRAM, large])
        wanted = f"pciboard 1\n# import: 0 bridges, 0 targets, 0 ranges\n# left out: 4800 functions, 0 windows, {ranges} ranges\n".encode()
        yield f"import_on_a_small_stack_{kind}", seen.cut(len(wanted)), Wanted(0, wanted, "-")


@row("import_of_slot_lines")
def import_of_slot_lines(place):
    lines = "".join(f"{n // 2048:02x}:{n // 8 % 256:02x}.{n % 8:x} x\n" for n in range(104857))
    seen = place.call("import", place.file("large", lines.encode()), timeout=2)
    yield "import_of_slot_lines", seen, Wanted(6, b"", "pcitree: import line 1 fault I3")


# Standard output that takes nothing, that is closed, and whose reader left; a FIFO, standard input by its name, and a file
# that may not be read.


@row("full_output")
def outputs_that_fail(place):
    failed = Wanted(4, b"", "pcitree: write failed")
    run = [PROGRAM, "run", "--steady", "boards/one_word.board"]
    with open("/dev/full", "wb") as full:
        yield "full_output", called(run, stdout=full), failed
        # and so of a board that is not safe, or of no such run: a write fault has its status, whatever the text says
        yield "full_output_of_safe", called([PROGRAM, "safe", "../boards/early.board"], stdout=full), failed
        adverse = [PROGRAM, "adverse", "../boards/early.board", "cpu.1", "nic.1"]
        yield "full_output_of_adverse", called(adverse, stdout=full), failed
        yield "full_output_of_help", called([PROGRAM, "help"], stdout=full), failed
        # no further file is read then
        files = called([PROGRAM, "safe", "../boards/nic.board", "none.board"], stdout=full)
        yield "full_output_of_files", files, Wanted(4, b"", "../boards/nic.board: pcitree: write failed")
    yield "closed_output", called(["bash", "-c", 'exec "$@" >&-', "bash", *run]), failed
    reading, writing = os.pipe()
    os.close(reading)
    yield "output_whose_reader_left", called(run, stdout=writing), failed
    os.close(writing)


@row("fifo")
def inputs_by_other_ways(place):
    board = place.read("boards/one_word.board")
    whole = Wanted(0, place.read("boards/one_word.trace"), "-")
    fifo = os.path.join(place.folder, "fifo")
    os.mkfifo(fifo)
    for name, text, wanted in (
        ("fifo", board, whole),
        ("fifo_that_ends_early", board[:14], Wanted(6, b"", "pcitree: board line 2 fault P2")),
    ):
        writer = subprocess.Popen(["bash", "-c", 'cat "$0" >"$1"', place.file("text", text), fifo])
        yield name, place.call("run", "--steady", fifo), wanted
        writer.wait()
    with open("boards/one_word.board", "rb") as file:
        yield "standard_input", place.call("run", "--steady", "/dev/stdin", stdin=file), whole
    for name, word in ("standard_input_of_a_pipe", "/dev/stdin"), ("standard_input_by_a_dash", "-"):
        yield name, place.call("run", "--steady", word, stdin=None, input=board), whole
    seen = place.call("safe", "-", "../boards/nic.board", stdin=None, input=place.read("../boards/nic.board"))
    answer = place.read("safe/nic.safe")
    wanted = Wanted(0, b"/dev/stdin:\n" + answer + b"../boards/nic.board:\n" + answer, "-")
    yield "standard_input_among_files", seen, wanted
    seen = place.call("headers", "-", stdin=None, input=b"pciboard 1\nfrob\n")
    yield "fault_of_standard_input", seen, Wanted(6, b"", "pcitree: board line 2 fault P2")


@row("file_that_may_not_be_read")
def file_that_may_not_be_read(place):
    """Left out for root, who may read each file."""
    if os.geteuid() != 0:
        os.chmod(place.file("closed.board", b""), 0)
        seen = called([os.path.abspath(PROGRAM), "safe", "closed.board"], cwd=place.folder)
        yield "file_that_may_not_be_read", seen, Wanted(3, b"", "pcitree: read failed")


@row("name_that_does_not_print")
def name_that_does_not_print(place):
    """Nor does a byte of the line; a tab is shown as a blank."""
    name = "a\u00e9\t.board"
    place.file(name, b"pciboard 1\nmr\t2\x07")
    seen = called([os.path.abspath(PROGRAM), "headers", name], cwd=place.folder)
    yield "name_that_does_not_print", seen, Wanted(6, b"", "pcitree: board line 2 fault L1")


# The man page, where there is what shows it: without a warning of its formatter, and no line wider than 80 columns.


@row("man_page")
def man_page(place):
    if shutil.which("man") and shutil.which("groff"):
        words = ["man", "--warnings=w", "-l", "../docs/pcitree.1"]
        seen = called(words, env={**os.environ, "LC_ALL": "C", "MANWIDTH": "80"})
        yield "man_page", seen.cut(10), Wanted(0, b"PCITREE(1)", "-")
        wide = [line for line in seen.out.split(b"\n") if len(line) > 80]
        yield "man_page_is_80_columns", seen_as(seen, b"\n".join(wide)), Wanted(0, b"", "-")


# No line of the help is wider than 80 columns, of no command either.


@row("help_is_80_columns")
def help_is_80_columns(place):
    commands = re.findall(r"(?m)^  ([a-z-]+) ", place.read("help.txt").decode())
    for words in [], *([it] for it in [*dict.fromkeys(commands), "board", "trace", "device", "log", "status"]):
        seen = place.call("help", *words)
        wide = [line for line in seen.out.split(b"\n") if len(line) > 80]
        yield f"help_is_80_columns_{' '.join(words)}", seen_as(seen, b"\n".join(wide)), Wanted(0, b"", "-")


# README is short enough to be read before anything is tried.


@row("readme_words")
def readme_words(place):
    count = len(place.read("../README.md").split())
    yield "readme_words", Seen(0, b"1600 words or fewer" if count <= 1600 else b"%d words" % count, b""), Wanted(0, b"1600 words or fewer", "-")


# The version is the one that the file says, and the logic by which all was proved is that of the kit that is here; another kit
# may have another letter. The pages name that logic too, each of them.


@row("version")
def version(place):
    kit = called(["rt", "version"]).out.decode()
    logic = re.search("logic [0-9a-f]{16}", kit)[0]
    seen = place.call("--version")
    number = place.read("../VERSION").decode().strip()
    out = re.sub(rb"\(rattle-kit-[^ )]* ", b"(", seen.out)
    yield "version", seen_as(seen, out), Wanted(0, f"pcitree {number} ({logic})\n".encode(), "-")
    for page in "README.md", "docs/proofs.md", "docs/pcitree.1":
        found = re.findall("logic `?([0-9a-f]{16})", place.read(os.path.join("..", page)).decode())
        named = "\n".join(sorted(set(found)))
        yield f"kit_of_{page}", Seen(0, named.encode(), b""), Wanted(0, logic.split()[1].encode(), "-")
    print(f"the kit that is here: {kit.strip()}; the program: {seen.out.decode().strip()}")


# Each code: `explain` shows an input that has it; of I5 none of a few lines is known (import_longer_than_a_board), nor
# of O4 (log_of_too_many_events) and O5 (observe_eight_ask_for_the_same).

CODES = {
    "headers": "L1 L2 L3 P1 P2 P3 P4 P5 P6 P7 P8 P9 P10 P11 P12 H1 H2 H3 H4 V1 V2 V3 V4 V5 V6 V7 V8 V9",
    "check": "X1 X2 X3 X4 X5 X6 X7 X8 N1 N2 N3 N4 N5",
    "import": "I1 I2 I3 I4",
    "observe": "G1 G2 G3 G4 G5 O1 O2 O3",
}


def example_of(page):
    """The input that a page of `explain` shows, between its title and the ordering table, with which some pages end."""
    lines = page.out.decode().split("\n")
    example, table, _ = "\n".join(lines[lines.index("Example:") + 2 :]).partition("\n\nMay a transaction")
    return example + ("\n" if table else "")


def explain_row(word, code):
    def explained(place):
        page = place.call("explain", code)
        seen = place.call(word, place.file("example", example_of(page).encode()))
        is_told = f" {code} " in first_line(seen.error) + " " and page.out.decode().startswith(f"{code}: ")
        yield f"explain_{code}", Seen(page.status if is_told else 99, seen.out, b""), Wanted(0, b"", "-")

    return f"explain_{code}", explained


ROWS += [explain_row(word, code) for word, codes in CODES.items() for code in codes.split()]


# All of a run of 1,940 events, by the sum of its page; more events than a page may show; README's picture and its board.


@row("drawn_whole_run")
def drawn(place):
    page = place.call("draw", "draw/generated.trace")
    yield "drawn_whole_run", seen_as(page, hashlib.sha256(page.out).hexdigest().encode() + b"\n"), Wanted(0, place.read("draw/generated.sum"), "-")
    whole = place.call("finish", "traces/drawn_traffic.trace")
    seen = place.call("draw", place.file("whole", whole.out))
    yield "drawn_too_many_events", seen, Wanted(5, b"", "pcitree: 9700 events are too many to draw")
    # of a trace that is refused further on the last 4,096 events up to the one that is not allowed
    lines = whole.out.split(b"\n")
    events = lines.index(b"events")
    lines[events + 5000] = lines[events + 1]
    refused = place.file("refused", b"\n".join(lines))
    part = place.call("draw", refused, "905", "5000")
    yield "drawn_last_of_a_refused_trace", place.call("draw", refused), Wanted(8, part.out, "pcitree: event 5000 is not allowed: N1")
    # the events of an operation are those from the first to the last that names it
    for trace, operation, first, last in (
        ("../boards/flag.trace", "prod.0", "1", "26"),
        ("traces/host_disk_and_network.trace", "cpu.2", "26", "53"),
        ("boards/one_word.trace", "cpu.2", "3", "9"),
    ):
        part = place.call("draw", trace, first, last)
        yield f"drawn_operation_{operation}", place.call("draw", trace, operation), Wanted(0, part.out, "-")
    page = place.call("draw", "../boards/flag.trace")
    seen = called(["../tools/page-svg", place.file("page", page.out)])
    yield "picture_of_readme", seen, Wanted(0, place.read("../docs/flag.svg"), "-")
    readme = place.read("../README.md").decode()
    board = re.search(r"^```\n(.*?)^```$", readme, re.S | re.M)[1]
    yield "board_of_readme", Seen(0, board.encode(), b""), Wanted(0, place.read("../boards/nic.board"), "-")


# Scripts with rows of their own.


def scripts():
    # the commands of README.md and of the guide, and the recipes of docs/ci.md
    yield "readme_commands", ["../tools/trials/readme-commands", "README.md", "docs/GUIDE.md"]
    yield "try_recipes", ["../tools/trials/try-recipes"]
    # the launcher over made checkouts, with stubs for the program and what builds it
    yield "try_launcher", ["../tools/trials/try-launcher"]
    # `safe` beside a second program, over all boards here and some that are drawn, and what `adverse` writes of them
    yield "safe_by_definitions", ["../tools/oracles/safe-by-definitions", "--compare", PROGRAM, "250"]
    # the caret below the word at fault, by the fronts of each line that is refused
    yield "carets", ["../tools/trials/carets"]
    # arrivals taken out of each run here, and put in again
    yield "fill_again", ["../tools/trials/fill-again"]
    # the monitor of PCI buses in its test bench, where there is a simulator
    if shutil.which("iverilog"):
        yield "try_monitor", ["../tools/trials/try-monitor"]
    # faults of the system in turn, disturbed schedules, inputs changed at random and the worst ones, each in a short form
    if shutil.which("cc"):
        yield "fail_each_call", ["../tools/trials/fail-each-call", "--most", "5"]
        yield "try_schedules", ["../tools/trials/try-schedules", "--times", "20"]
    else:
        print("rows: no C compiler, so that fail_each_call and try_schedules are left out")
    yield "fuzz", ["../tools/trials/fuzz", "--seconds", "20"]
    yield "worst", ["../tools/trials/worst", "--part", "16"]
    # the Debian package, where there is what makes one, made by somebody whose files nobody else may read
    if shutil.which("dpkg-deb"):
        folder = tempfile.mkdtemp()
        yield "package", ["bash", "-c", 'umask 077; ../tools/trials/try-deb "$(../tools/make-deb "$0")"', folder]
        shutil.rmtree(folder)
