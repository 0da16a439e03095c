"""The kit's own rt as a library, with two changes. What it computes of a crate and all that it uses is computed once: the sum
of their sources, and their list. rt computes the list (older kits the sum too) anew for each way from one crate to another
along crates.txt, and from the program down there are hundreds of thousands of ways; the answers are the same. And each
library is kept as the gate keeps it (keep_statements).
"""
import hashlib
import importlib.machinery
import importlib.util
import os
import subprocess
import sys

sys.dont_write_bytecode = True


def command():
    """rt, as a module: its function main takes the words. What it is made of is its rtlib."""
    made = load("rt_kit", of_kit("rt"))
    change(made.rtlib)
    return made


def planting():
    """rt plant, likewise: its function main takes the words one by one."""
    made = load("rt_plant", of_kit("rt-plant"))
    change(made.rt)
    return made


def of_kit(name):
    """A file of the kit's bin/."""
    page = subprocess.run(["rt", "doc"], stdout=subprocess.PIPE, text=True, check=True).stdout.strip()
    return os.path.join(os.path.dirname(page), "bin", name)


def change(rtlib):
    """The two changes, to a Crate that has what they replace and call (tools/checks/try-kit tries them)."""
    lacking = [it for it in ("stamp", "below", "is_built", "build_rlib", "words", "call") if not hasattr(rtlib.Crate, it)]
    if lacking:
        raise AttributeError(f"this kit's Crate has no {', '.join(lacking)}")
    rtlib.Crate.stamp, rtlib.Crate.below = once_for_each_crate(rtlib)
    if "--statements" in rtlib.help_of("build"):
        keep_statements(rtlib)


def library():
    """What rt is made of."""
    made = command().rtlib
    made.guarded()  # (its first call sets a signal's handler, which only the main thread may)
    return made


def load(name, file):
    loader = importlib.machinery.SourceFileLoader(name, file)
    made = importlib.util.module_from_spec(importlib.util.spec_from_loader(name, loader))
    sys.modules[name] = made
    loader.exec_module(made)
    return made


def once_for_each_crate(rtlib):
    texts = {}

    def text_of(file, folder):
        found = os.stat(file)
        key = (file, found.st_mtime_ns, found.st_size)
        if key not in texts:
            with open(file, "rb") as it:
                texts[key] = repr((file.replace(folder, ""), it.read())).encode()
        return texts[key]

    def stamp(self, known=None):
        known = {} if known is None else known
        if self.folder not in known:
            total = hashlib.sha256(repr((self.said, self.has_c)).encode())
            with open(os.path.join(rtlib.KIT, "WHAT"), "rb") as it:
                total.update(it.read())
            for file in rtlib.files_of(self.folder):
                total.update(text_of(file, self.folder))
            total.update(repr([stamp(it, known) for it in self.deps]).encode())
            known[self.folder] = total.hexdigest()
        return known[self.folder]

    def below(self):
        if not hasattr(self, "all_below"):
            self.all_below = []
            for it in self.deps:
                self.all_below += [other for other in [*it.below(), it] if other not in self.all_below]
        return [*self.all_below]

    return stamp, below


def keep_statements(rtlib):
    """Has each library proved and built into out/rlib/statements/ with what other crates may cite of it, and not with its proofs,
    as the gate has it: a check above then reads a small part of what it would read. (Below out/rlib/ the gate leaves such
    files alone; what rt itself builds there takes their place.)"""
    make = rtlib.Crate.__init__

    def begin(self, *given, **named):
        make(self, *given, **named)
        self.rlib = os.path.join(self.folder, "out", "rlib", "statements", f"{self.name}.rlib")

    def mark(self):
        """The sum of the sources, and of the libraries below as they were built: statements fit no others."""
        below = [rtlib.sum_of(os.path.join(it.rlib, "format")) for it in self.below()]
        return hashlib.sha256(repr((self.stamp(), below)).encode()).hexdigest()

    def is_built(self):
        return os.path.isdir(self.rlib) and rtlib.text_of(f"{self.rlib}.mark") == mark(self)

    def build_rlib(self, flags, anew):
        if not anew and self.is_built():
            return 0
        os.makedirs(os.path.dirname(self.rlib), exist_ok=True)
        before = mark(self)
        words = [*self.words(flags, keeps=False), "--statements", "-o", self.rlib]
        status = self.call(rtlib.RATTLE, "build", *words)
        # After an edit during the build nothing tells which text was built.
        if status == 0 and mark(self) == before:
            with open(f"{self.rlib}.mark", "w", encoding="ascii") as it:
                it.write(before)
        return status

    rtlib.Crate.__init__, rtlib.Crate.is_built, rtlib.Crate.build_rlib = begin, is_built, build_rlib
