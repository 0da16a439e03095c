"""The sources as house reads them: the crates of crates.txt, the items of .rt files, the definitions of specs/, the edits; and
their text without what a move of files may change.
"""
import os
import re
from collections import namedtuple
from functools import lru_cache

# The repository that is read.
TOP = os.path.dirname(os.path.dirname(os.path.realpath(__file__)))

Crate = namedtuple("Crate", "name floor uses")


def read(*path):
    with open(os.path.join(TOP, *path), encoding="utf-8") as file:
        return file.read()


@lru_cache(maxsize=None)
def crates():
    """The crates of crates.txt by their names, in its order, each with its floor and what it uses of the others."""
    found, floor = [], ""
    for line in read("crates.txt").splitlines():
        if line.startswith("#"):
            floor = line[1:].partition(":")[0].strip()
        elif line.strip():
            head, _, uses = line.partition("#")[0].partition(":")
            found.append(Crate(head.split()[0], floor, uses.split()))
    known = {crate.name for crate in found}
    return {it.name: it._replace(uses=[name for name in it.uses if name in known]) for it in found}


@lru_cache(maxsize=None)
def files(crate, folder, ending):
    """The files of a crate's folder that end so, as pairs of path and text."""
    found = []
    for at, _, inside in os.walk(os.path.join(TOP, "crates", crate, folder)):
        found += [os.path.relpath(os.path.join(at, name), TOP) for name in inside if name.endswith(ending)]
    return [(path, read(path)) for path in sorted(found)]


# Text without what a move may change.

COMMENT_OR_LITERAL = re.compile(
    r"""//[^\n]*|(?P<literal>b?"(?:\\.|[^"\\])*"|b?'(?:\\(?:u\{\w*\}|x\w\w|.)|[^'\\\n])')""", re.DOTALL
)
PATH = re.compile(r"(?<![\w:])(\w+)::((?:[a-z_]\w*::)*)")
ANTT_PATH = re.compile(r"\bRattle(?:\.\w+)+\.(?=[\w◌])")


def without_paths(text):
    def shorter(found):
        is_ours = found[1] in crates() or found[1] in ("crate", "self", "super")
        return "" if is_ours else found[0]

    return ANTT_PATH.sub("", PATH.sub(shorter, text))


def on_one_line(text):
    """Words with one blank between them, and none inside brackets; no comma or semicolon before a closing one."""
    text = re.sub(r"\s+", " ", without_paths(text))
    text = re.sub(r"([(\[{]) ", r"\1", text)
    return re.sub(r"[,;]? ?([)\]}])", r"\1", text)


def said(text):
    """Code as one line, without comments; what stands in literals stays as it is."""
    text = COMMENT_OR_LITERAL.sub(lambda found: found["literal"] or " ", text)
    parts, at = [], 0
    for found in COMMENT_OR_LITERAL.finditer(text):
        parts += [on_one_line(text[at : found.start()]), re.sub(r"\\\n\s*", "", found[0])]
        at = found.end()
    return "".join(parts + [on_one_line(text[at:])]).strip()


def masked(text):
    """The text with blanks for comments and literals, so that only code has brackets; each place stays."""
    return COMMENT_OR_LITERAL.sub(lambda found: " " * len(found[0]), text)


# The items of a .rt file. `head` is the text up to the body, with clauses; of a type it is all.

Item = namedtuple("Item", "crate path line kind name is_public above head body inside")

BRACKET = re.compile(r"[(\[{}\])]")
STOP = re.compile(r"[(\[{;]")
VALUE = re.compile(r"(pub(\([^)]*\))?\s+)?(use|const(?!\s+(unsafe\s+)?fn)|static|type|ghost)\b")
CLAUSE = re.compile(r"\b(requires|ensures)(\s+[^\s{}]+)?\s*$")
HEAD = re.compile(
    r"(?P<access>pub(?:\([^)]*\))?\s+)?(?:(?:unsafe|const(?=\s+(?:unsafe\s+)?fn))\s+)*"
    r"(?P<kind>fn|struct|enum|trait|const|static|type|mod|use|impl|ghost|macro_rules!)\b\s*(?P<name>\w*)"
)


def closing(code, at):
    """Where the bracket that stands there is closed."""
    depth = 0
    for found in BRACKET.finditer(code, at):
        depth += 1 if found[0] in "([{" else -1
        if depth == 0:
            return found.start()
    raise ValueError("a bracket is not closed")


def ends_of(code, head):
    """Of the item with this head: where its body begins (its end, where it has none), and where it ends."""
    is_value = VALUE.match(code, head)
    at = before = head
    while True:
        found = STOP.search(code, at)
        if found[0] == ";":
            return found.end(), found.end()
        at = closing(code, found.start()) + 1
        is_body = found[0] == "{" and not is_value and not CLAUSE.search(code[before : found.start()])
        if is_body:
            return found.start(), at
        before = at


def skip_blanks(code, at, end):
    while at < end and code[at].isspace():
        at += 1
    return at


def items_between(crate, path, text, code, at, end, inside=""):
    """Each item between two places of a file, and behind an impl, a trait or a module those inside."""
    behind = at
    at = skip_blanks(code, at, end)
    while at < end:
        head = at
        while code.startswith("#", head):
            head = skip_blanks(code, closing(code, code.index("[", head)) + 1, end)
        body, stop = ends_of(code, head)
        found = HEAD.match(code, head)
        if found and "cfg(test)" not in code[at:head]:
            kind, is_type = found["kind"], found["kind"] in ("struct", "enum")
            heads = text[at:stop] if is_type else text[head:body]
            is_public = (found["access"] or "").strip() == "pub"
            line = text.count("\n", 0, head) + 1
            yield Item(crate, path, line, kind, found["name"], is_public, text[behind:head], heads, text[body:stop], inside)
            if kind in ("impl", "trait", "mod") and body < stop:
                context = inside if kind == "mod" else said(text[head:body])
                yield from items_between(crate, path, text, code, body + 1, stop - 1, context)
        behind = stop
        at = skip_blanks(code, stop, end)


@lru_cache(maxsize=None)
def items(crate):
    found = []
    for path, text in files(crate, "src", ".rt"):
        code = masked(text)
        inner = re.match(r"(\s*#!\[[^\]]*\])*", code).end()
        found += items_between(crate, path, text, code, inner, len(code))
    return found


def all_items():
    return (item for crate in crates() for item in items(crate))


# The definitions of a page of specs/.

DEFINITION = re.compile(r"(abbrev pub|unfoldable pub|pub record|pub data) +(\S+)")
Definition = namedtuple("Definition", "path line name is_type has_meaning lines")


def definitions_of(crate):
    for path, text in files(crate, "specs", ".antt"):
        found, before = [], ""
        for number, line in enumerate(text.splitlines(), start=1):
            opens = DEFINITION.match(line)
            if opens:
                is_type = opens[2][0].isupper()
                found.append(Definition(path, number, opens[2], is_type, before.startswith("--"), []))
            if found and not re.match(r"use |(pub )?mod ", line):
                found[-1].lines.append(re.sub(r"(^|\s)--(\s.*)?$", "", line))
            before = line
        yield from found


def all_definitions():
    return (it for crate in crates() for it in definitions_of(crate))


IMPORT = re.compile(r"\bRattle\.(\w+)\.specs\.([\w.]+)\.\{([^}]*)\}")


@lru_cache(maxsize=None)
def imported(text):
    """What a page of specs/ or a file of code imports: of each name there, the places where its definition may stand, each
    a page and a name (of a constructor, that of its data)."""
    found = {}
    for crate, module, names in IMPORT.findall(text):
        page = f"crates/{crate}/specs/{module.replace('.', '/')}.antt"
        outer, _, inner = module.rpartition(".")
        owner = (f"crates/{crate}/specs/{outer.replace('.', '/')}.antt", inner)
        for name in names.split(","):
            own, _, alias = name.strip().partition(" as ")
            found[alias or own] = [(page, own), owner]
    return found


def named_in(text, page, path):
    """Of each word of a text in this page: the places where its definition may stand."""
    words = set(re.findall(r"[\w◌]+|[^\s\w(){}.,]+", text))
    given = imported(page)
    infix = {name.strip("◌"): name for name in given if "◌" in name}
    words |= {infix[word] for word in words if word in infix}
    return [[*given.get(word, []), (path, word)] for word in words]


def edits_of(folder):
    """The edits that stand in this folder of the crates, each with its crate, path and text."""
    return [(crate, path, text) for crate in crates() for path, text in files(crate, folder, ".edit")]
