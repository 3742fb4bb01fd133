"""What the page holds beside its code: the examples, what docs/FAULTS.md and tools/say say of each fault, and the parts of
tools/picture's page."""
import base64
import glob
import gzip
import os
import re
import sys

HERE = os.path.dirname(os.path.realpath(__file__))
TOP = os.path.dirname(os.path.dirname(HERE))
sys.path[:0] = [HERE, f"{TOP}/tools", f"{TOP}/tools/pictures"]

import page as pictures  # noqa: E402
from saying import syntax  # noqa: E402
from sqfiles.programs import LEVELS, WORDS  # noqa: E402
from wasm import load_tool  # noqa: E402

SCRIPTS = ("call.js", "plan.js", "picture.js", "names.js", "say.js", "live.js")
# The texts that the words of a command name, by their places behind it.
ROLES = {
    "check": ["program"],
    "fmt": ["program"],
    "exec": ["plan", "data"],
    "span": ["program", "mapping", "machine", "cost"],
    "tune": ["program", "mapping", "machine"],
}
USUAL = ["program", "mapping", "machine", "data"]


def part(name):
    with open(f"{HERE}/{name}", encoding="utf-8") as text:
        return text.read()


# ---- examples


class Examples:
    """The examples to choose from, and each file of theirs once."""

    def __init__(self):
        self.files, self.listed = {}, []

    def add(self, group, name, command, **named):
        """One whose texts are these files; of those that aren't there it has none."""
        there = {role: path for role, path in named.items() if path and os.path.isfile(path)}
        for path in there.values():
            with open(path, encoding="utf-8") as text:
                self.files.setdefault(os.path.relpath(path, TOP), text.read())
        told = {role: os.path.relpath(path, TOP) for role, path in there.items()}
        self.listed.append({"group": group, "name": name, "command": command, "texts": told})
        return self.listed[-1]

    def add_folder(self, folder):
        """A program under each of its mappings and machines, with what else its folder has."""
        name = os.path.basename(folder)
        program, data = f"{folder}/program.sq", f"{folder}/data.txt"
        stems = [path[:-4] for path in sorted(glob.glob(f"{folder}/*.map"))]
        for stem in stems:
            self.add("Programs", f"{name} {os.path.basename(stem)}", "run", **of_stem(stem, program), data=data, cost=f"{stem}.cost")
        if not stems:
            self.add("Programs", name, "fmt", program=program)
        for path in sorted(glob.glob(f"{folder}/*.choices")):
            texts = {"program": program, "mapping": path, "machine": f"{path[:-8]}.mach", "data": data}
            self.add("Choices", f"{name} {os.path.basename(path)}", "tune", **texts)
        for path in sorted(glob.glob(f"{folder}/*.cost")):
            self.add("Heaviest chains", f"{name} {os.path.basename(path)}", "span", **of_stem(path[:-5], program), cost=path, data=data)
        for path in sorted(glob.glob(f"{folder}/*.plan")):
            self.add("Plan files", f"{name} {os.path.basename(path)}", "exec", plan=path, data=data)

    def add_fault(self, folder):
        with open(f"{folder}/words", encoding="utf-8") as text:
            command, *words = text.read().split()
        named = dict(zip(ROLES.get(command, USUAL), (f"{folder}/{word}" for word in words)))
        order = next((word[len("order=list:") :] for word in words if word.startswith("order=list:")), None)
        if order:
            named["order"] = f"{folder}/{order}"
        made = self.add("Faults", os.path.basename(folder), command, **named)
        if order:
            made["order"] = "list"


def of_stem(stem, program):
    return {"program": program, "mapping": f"{stem}.map", "machine": f"{stem}.mach"}


def examples():
    found = Examples()
    for folder in sorted(glob.glob(f"{TOP}/examples/*/")):
        if os.path.exists(f"{folder}program.sq"):
            found.add_folder(folder.rstrip("/"))
    for folder in sorted(glob.glob(f"{TOP}/examples/faults/*/")):
        found.add_fault(folder.rstrip("/"))
    return found


# ---- what is said of faults


def faults():
    """Causes and cures by the code, and by phase and code where a phase has a section of its own."""
    say, found = load_tool("say"), {}
    phase_of = {suffix: phase for phase, suffix in say.SUFFIX.items()}
    for heading, section in say.sections().items():
        code, suffix = re.match(r"(\w+)(.*)", heading).groups()
        told = {"causes": list(say.paragraphs(section, "Cause")), "cures": list(say.paragraphs(section, "Cure"))}
        found[f"{phase_of[suffix]} {code}" if suffix in phase_of else code] = told
    return found


LABELS = {"OpenComment": "behind this no `*/` follows", "TooDeep": "level 65, and 64 may be; in a plan file 1025, and 1024 may be"}
OTHERS = [("a name", "zz"), ("a number", "7"), ("`0`", "0"), ("`1`", "1"), ("`2`", "2"), ("the end of the file", "")]
SIGNS = "( ) [ ] { } , ; = + - * += -= *= ++ ~ ! :: -> @ |".split()
OPERATORS = [sign for level in LEVELS for sign in level]
MACHINES = "machine level levels children capacity node".split()
MAPPINGS = "mapping entry instance inner leaf tunable call spread cyclic blocked".split()
PLANS = "plan node buffer leaf array seq par at copy fill acc run lowest void task in out inout byte int long min max".split()
COSTS = "cost level row byte leaf".split()


def candidates():
    """What may stand somewhere in a text of a role: what it is called, and the token with which it is tried."""
    words = {"program": sorted(WORDS), "machine": MACHINES, "mapping": MAPPINGS, "plan": PLANS, "cost": COSTS}
    signs = list(dict.fromkeys(SIGNS + OPERATORS))
    return {role: [(f"`{one}`", one) for one in own + signs] + OTHERS for role, own in words.items()}


# ---- the page


def picture_parts():
    """The parts of tools/picture's page, with marks for what its script needs to know of a run."""
    run = pictures.Run("", type("Trace", (), {"events": []})(), None)
    controls = pictures.controls(type("Picture", (), {"runs": [run]})())
    controls = controls.replace("of 0<", "of {{most}}<").replace('max="1"', 'max="{{max}}"')
    if "{{most}}" not in controls or "{{max}}" not in controls:
        raise ValueError("tools/pictures/page.py writes its controls in another way than before")
    script = "".join(map(pictures.part, pictures.SCRIPTS))
    parts = {"frame": pictures.part("page.html"), "style": pictures.part("page.css"), "script": script}
    return {**parts, "controls": controls, "legend": pictures.LEGEND}


def tables():
    found = examples()
    return {
        "examples": found.listed,
        "files": found.files,
        "faults": faults(),
        "labels": LABELS,
        "bytes": {str(byte): hint for byte, hint in syntax.BYTES.items()},
        "candidates": candidates(),
        "slips": [[*slip[:3], None if slip[3] is None else list(slip[3]), slip[4]] for slip in syntax.SLIPS],
        "first_words": syntax.FIRST_WORDS,
        "words": sorted(WORDS),
        "operators": [f"`{sign}`" for sign in OPERATORS],
        "parts": picture_parts(),
    }


def page(module):
    """The whole page round a WebAssembly module."""
    packed = base64.b64encode(gzip.compress(module, 9, mtime=0)).decode()
    parts = {
        "style": pictures.part("page.css") + part("live.css"),
        "data": pictures.as_json(tables()),
        "worker": part("call.js") + part("worker.js"),
        "module": packed,
        "script": "".join(map(part, SCRIPTS)),
    }
    return re.sub(r"\{\{(\w+)\}\}", lambda match: parts[match.group(1)], part("live.html"))
