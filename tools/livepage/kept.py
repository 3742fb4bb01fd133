"""The libraries that `rt ci` keeps on this machine of crates as they stand here.

An entry's name is the sum of all that a proof read: the crate's own files, the kit, and the libraries below as they were
built. The kit's rt works it out; so no library of other texts is taken.
"""
import hashlib
import importlib.machinery
import importlib.util
import json
import os
import re
import sys


def load_rt(kit):
    """The code of `rt`."""
    sys.dont_write_bytecode = True
    loader = importlib.machinery.SourceFileLoader("rt_of_kit", f"{kit}/bin/rt")
    rt = importlib.util.module_from_spec(importlib.util.spec_from_loader(loader.name, loader))
    loader.exec_module(rt)
    return rt


class Kept:
    """The kept proofs of a crate and of those below it, from the lowest."""

    def __init__(self, kit, top, name):
        self.rt, self.entries, self.sums = load_rt(kit), {}, {}
        self.rt.Crate.allowed = self.rt.handles_of(top)
        self.crate = self.rt.Crate(f"{top}/crates/{name}", top, {}, name=None)
        for below in self.crate.deps:
            self.find(below)

    def find(self, crate):
        if crate.name in self.entries:
            return
        for below in crate.deps:
            self.find(below)
        below = [(one.name, self.sums[one.name]) for one in crate.below()]
        key = hashlib.sha256(repr((self.rt.own_sum(crate), below)).encode()).hexdigest()
        files = self.files(f"{self.rt.STORE}/proof-{crate.name}-{key}")
        self.entries[crate.name] = files and (f"{self.rt.STORE}/proof-{crate.name}-{key}", files)
        self.sums[crate.name] = files and hashlib.sha256(repr(files).encode()).hexdigest()

    @staticmethod
    def files(entry):
        """The names and sums of what is kept there, in their order; None where nothing is."""
        try:
            with open(f"{entry}/made.json", encoding="utf-8") as text:
                return [tuple(file) for file in json.load(text)["files"]]
        except (OSError, ValueError, KeyError):
            return None

    def lacking(self):
        return [name for name, entry in self.entries.items() if not entry]

    def lay(self, folder):
        """Gives each library a place in the folder, as NAME.rlib: the i-th file of an entry is kept under the name i. They
        have some 7 GB together, so they aren't copied where they can have a second name."""
        for entry, files in self.entries.values():
            for number, (name, _) in enumerate(files):
                inner = re.fullmatch(r"rlib/(.*)", name)
                if inner:
                    to = f"{folder}/{inner.group(1)}"
                    os.makedirs(os.path.dirname(to), exist_ok=True)
                    self.rt.link_or_copy(f"{entry}/{number}", to)

    def words(self, kit, folder, flags):
        """The command that builds the crate over what was laid there."""
        crate = self.crate
        words = [f"{kit}/bin/rattle", "build", "--crate-name", crate.name, "src/lib.rt", "--extern", f"std={kit}/rlibs/std.rlib"]
        for name in [one.name for one in crate.deps]:
            words += ["--extern", f"{name}={folder}/{name}.rlib"]
        for name in crate.of_kit:
            words += ["--extern", f"{name}={kit}/rlibs/{name}.rlib"] if name != "std" else []
        words += ["-L", f"dependency={kit}/rlibs", "-L", f"dependency={folder}"]
        words += ["--antt-project", f"{kit}/rattle/logic/antt-project.json", "--logic-built", f"{kit}/logic_built"]
        return [*words, "--links", f"{crate.name}=", *flags]
