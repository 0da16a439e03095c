"""What the rows are made of: a place in which the program is called, what was seen of a call, and what was wanted."""
import os
import subprocess
import tempfile

PROGRAM = os.path.join("..", "crates", "pcitree_cli", "out", "pcitree_cli")


class Seen:
    """The exit status of a call, its standard output and its standard error."""

    def __init__(self, status, out, error):
        self.status, self.out, self.error = status, out, error

    def cut(self, length):
        return Seen(self.status, self.out[:length], self.error)


class Wanted:
    """The exit status, all of standard output, and the first line on standard error (- for none)."""

    def __init__(self, status, out, error):
        self.status, self.out, self.error = status, out, error


class Place:
    """A folder of its own for the files of one row."""

    def __enter__(self):
        self.holder = tempfile.TemporaryDirectory()
        self.folder = self.holder.name
        return self

    def __exit__(self, *_):
        self.holder.cleanup()

    def read(self, name):
        with open(name, "rb") as file:
            return file.read()

    def file(self, name, content):
        """A file of this content, by its path."""
        path = os.path.join(self.folder, name)
        with open(path, "wb") as file:
            file.write(content)
        return path

    def word(self, word):
        """A word of a call: of FILE@N and FILE#N a file that has so much of it."""
        for sign, front in (("@", lambda text, most: text[:most]), ("#", events_of)):
            name, found, most = word.partition(sign)
            if found and os.path.isfile(name):
                return self.file("cut", front(self.read(name), int(most)))
        return word

    def call(self, *words, **given):
        """The program on these words."""
        return called([PROGRAM, *map(self.word, words)], **given)


def called(words, **given):
    ran = subprocess.run(words, **{"stdin": subprocess.DEVNULL, "stdout": subprocess.PIPE, "stderr": subprocess.PIPE, **given})
    return Seen(ran.returncode, ran.stdout or b"", ran.stderr or b"")


def events_of(text, most):
    """The trace of the first events of one."""
    front, _, behind = text.partition(b"\nevents\n")
    lines = [line for line in behind.split(b"\n") if line][:most]
    return b"\n".join([front, b"events", *lines, b"end %d" % most]) + b"\n"


def first_line(error):
    return error.split(b"\n")[0].decode(errors="replace")


def lines_of(name):
    """The lines of a table, each as what stands between its tabs."""
    with open(name, encoding="utf-8") as file:
        for line in file:
            line = line.rstrip("\n")
            if line and not line.startswith("#"):
                yield line.split("\t")


def lines_in(text):
    """The lines of an input of texts.tsv."""
    for part in text.split("|") if text else []:
        count, star, line = part.partition("*")
        if star and count.isdigit():
            yield from (line.replace("@-", str(number - 1)).replace("@", str(number)) for number in range(1, int(count) + 1))
        else:
            yield part.encode().decode("unicode_escape")


def fault_of(name, seen, wanted):
    """What is wrong with what was seen, or None."""
    says = not seen.error if wanted.error == "-" else first_line(seen.error) == wanted.error
    told = os.path.join("messages", name)
    if os.path.isfile(told):
        with open(told, "rb") as file:
            says = says and seen.error == file.read()
    if seen.status == wanted.status and seen.out == wanted.out and says:
        return None
    lines = [f"row {name} FAILED: status {seen.status} (wanted {wanted.status}), standard error: {seen.error.decode(errors='replace')}"]
    if seen.out != wanted.out:
        lines += differences(seen.out, wanted.out)
    return "\n".join(lines)


def differences(seen, wanted):
    """The first line in which they differ."""
    pairs = zip(seen.split(b"\n") + [b""], wanted.split(b"\n") + [b""])
    for number, (one, other) in enumerate(pairs, start=1):
        if one != other:
            return [f"line {number} is {one[:200]!r}", f"  and wanted {other[:200]!r}"]
    return ["one is a front of the other"]
