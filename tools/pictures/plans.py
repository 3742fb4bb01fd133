"""Plan files, as far as tools ask: their lines with places, and the events of their terms in order.

What is written is docs/FORMATS.md, section plan files. Nothing is judged here but what is needed to go on.
"""
import re
from dataclasses import dataclass, field
from typing import Dict, List, Optional, Tuple, Union

Place = Tuple[int, int]  # line and column, from 1; columns in bytes
BLANKS = re.compile(rb"\s*")
COMMENT = re.compile(rb"//[^\n]*|/\*.*?\*/", re.S)
TOKEN = re.compile(rb"[A-Za-z_][A-Za-z0-9_]*|[0-9]+|::|\+\+|[-+*/%&|^]=|<<|>>|[<>=!]=|&&|\|\||\S", re.S)
WORD = re.compile(rb"[a-z]+|\}")
LOWEST = -(2**63)
WIDTHS = {"byte": 1, "int": 4, "long": 8}


class BadPlan(Exception):
    """The text is no plan file from this place on."""

    def __init__(self, place):
        super().__init__(f"{place[0]}:{place[1]}")
        self.place = place


@dataclass
class Node:
    place: Place
    level: int
    capacity: int
    first_child: int
    children: int


@dataclass
class Buffer:
    place: Place
    level: int
    offset: int
    size: int
    instance: str
    array: str


@dataclass
class Leaf:
    place: Place
    instance: str
    numbers: Dict[str, int]
    task: str = ""
    last: int = 0  # the line on which its task ends


@dataclass
class Array:
    place: Place
    mode: str
    elem: str
    name: str
    extents: List[int]
    buffer: int


@dataclass
class Slot:
    buffer: int
    at: int


@dataclass
class View:
    slot: Slot
    elem: str
    extents: List[int]
    strides: List[int]


@dataclass
class Part:
    """A `seq`, a `par` or an `at`: where it stands, in what, and the nodes in force in it, from the root's on."""

    kind: str
    place: Place
    within: Optional["Part"]
    nodes: List[int]
    buffers: List[int] = field(default_factory=list)


@dataclass
class Event:
    kind: str
    place: Place
    within: Optional[Part]
    nodes: List[int]
    source: Optional[Slot] = None
    to: Optional[Slot] = None
    size: int = 0  # bytes of a copy, elements else
    elem: str = "byte"
    op: str = ""
    value: int = 0
    leaf: int = 0
    views: List[View] = field(default_factory=list)
    path: List[int] = field(default_factory=list)

    def bytes(self):
        return self.size * WIDTHS[self.elem]


@dataclass
class Plan:
    nodes: List[Node] = field(default_factory=list)
    buffers: List[Buffer] = field(default_factory=list)
    leaves: List[Leaf] = field(default_factory=list)
    arrays: List[Array] = field(default_factory=list)
    parts: List[Part] = field(default_factory=list)
    events: List[Event] = field(default_factory=list)
    items: List[Union[Part, Event]] = field(default_factory=list)  # both, as they stand in the text

    def index(self, node):
        """Which of its level a node is, from the left."""
        first = next((n for n, it in enumerate(self.nodes) if it.level == self.nodes[node].level), node)
        return node - first


def integers(text):
    """Those of a list, without its brackets."""
    return [int(word) for word in text.split(b",")] if text.strip() else []


def without_comments(text):
    """Blanks in place of comments, so that what is left stays where it is."""
    return COMMENT.sub(lambda match: re.sub(rb"[^\n]", b" ", match.group()), text) if b"/" in text else text


class Reader:
    """Goes through the text once: token by token as far as the term, and then by a whole part or event at a time, since a
    term has tens of thousands of them."""

    def __init__(self, text):
        self.text, self.plan = without_comments(text), Plan()
        self.at = BLANKS.match(self.text).end()
        self.counted, self.line, self.begin = 0, 1, 0  # how far lines are counted, and where the last one begins
        self.views = {}

    def look(self):
        match = TOKEN.match(self.text, self.at)
        return match.group().decode("latin-1") if match else ""

    def place(self):
        """That of what comes next."""
        ends = self.text.count(b"\n", self.counted, self.at)
        if ends:
            self.line, self.begin = self.line + ends, self.text.rfind(b"\n", self.counted, self.at) + 1
        self.counted = self.at
        return self.line, self.at - self.begin + 1

    def next(self, *allowed):
        word = self.look()
        if (allowed and word not in allowed) or not word:
            raise BadPlan(self.place())
        self.at = BLANKS.match(self.text, self.at + len(word)).end()
        return word

    def number(self):
        if not self.look().isdigit():
            raise BadPlan(self.place())
        return int(self.next())

    def name(self):
        if not re.match(r"[A-Za-z_]", self.look()):
            raise BadPlan(self.place())
        return self.next()

    def value(self):
        if self.look() == "lowest":
            self.next()
            return LOWEST
        if self.look() == "-":
            self.next()
            return -self.number()
        return self.number()

    def some(self, opening, closing, one):
        """A list in brackets, with commas."""
        found = []
        self.next(opening)
        while self.look() != closing:
            if found:
                self.next(",")
            found.append(one())
        self.next(closing)
        return found

    def numbers(self):
        return self.some("[", "]", self.number)

    # ---- lines

    def read(self):
        for word in ("plan", "1", ";"):
            self.next(word)
        for word, line in (("node", self.node), ("buffer", self.buffer), ("leaf", self.leaf), ("array", self.array)):
            while self.look() == word:
                line(self.place())
        self.term()
        if self.look():
            raise BadPlan(self.place())
        return self.plan

    def node(self, place):
        self.next()
        self.plan.nodes.append(Node(place, *(self.number() for _ in range(4))))
        self.next(";")

    def buffer(self, place):
        self.next()
        self.plan.buffers.append(Buffer(place, *(self.number() for _ in range(3)), self.name(), self.name()))
        self.next(";")

    def leaf(self, place):
        self.next()
        leaf = Leaf(place, self.name(), {})
        for name, value in self.some("(", ")", self.binding):
            leaf.numbers[name] = value
        self.task(leaf)
        self.plan.leaves.append(leaf)

    def binding(self):
        name = self.name()
        self.next("=")
        return name, self.value()

    def task(self, leaf):
        """The name of a task, and where it ends."""
        if self.next("void", "task") == "void":
            self.next("task")
        leaf.task = self.name() + self.next("::") + self.next("leaf")
        self.next("(")
        while self.next() != ")":
            pass
        depth = 0
        while True:
            leaf.last = self.place()[0]
            depth += {"{": 1, "}": -1}.get(self.next(), 0)
            if depth == 0:
                return

    def array(self, place):
        self.next()
        mode, elem = self.next("in", "out", "inout"), self.next(*WIDTHS)
        place = self.place()
        self.plan.arrays.append(Array(place, mode, elem, self.name(), self.numbers(), self.number()))
        self.next(";")

    # ---- the term

    def term(self):
        """One term; brackets that are open stand in a list, since they may be a thousand."""
        plan, text, open_parts = self.plan, self.text, []
        within, nodes = None, [0]
        while True:
            word = WORD.match(text, self.at)
            form, make = FORMS.get(word.group(), (None, None)) if word else (None, None)
            match = form and form.match(text, self.at)
            if not match or not (make or open_parts):
                raise BadPlan(self.place())
            if make is None:
                open_parts.pop()
            else:
                item = make(self, self.place(), within, nodes, match.groups())
                plan.items.append(item)
                if isinstance(item, Part):
                    plan.parts.append(item)
                    open_parts.append(item)
                else:
                    plan.events.append(item)
            self.at = match.end()
            if not open_parts:
                return
            within = open_parts[-1]
            nodes = within.nodes

    def part(self, place, within, nodes, groups):
        return Part(groups[0].decode(), place, within, nodes)

    def at_node(self, place, within, nodes, groups):
        node = int(groups[0])
        return Part("at", place, within, nodes if node == nodes[-1] else nodes + [node], integers(groups[1]))

    def copy(self, place, within, nodes, groups):
        source, at, to, to_at, size = map(int, groups)
        return Event("copy", place, within, nodes, Slot(source, at), Slot(to, to_at), size)

    def fill(self, place, within, nodes, groups):
        to, at, elem, size, sign, value = groups
        value = LOWEST if value == b"lowest" else int(sign + value)
        return Event("fill", place, within, nodes, None, Slot(int(to), int(at)), int(size), elem.decode(), value=value)

    def accumulate(self, place, within, nodes, groups):
        source, at, to, to_at, size = map(int, groups[2:])
        op, elem = groups[0].decode(), groups[1].decode()
        return Event("acc", place, within, nodes, Slot(source, at), Slot(to, to_at), size, elem, op)

    def run(self, place, within, nodes, groups):
        leaf, views, path = groups[0], groups[1].strip(), groups[2]
        if views not in self.views:  # calls of one form have the same ones
            self.views[views] = self.read_views(views)
        return Event("run", place, within, nodes, leaf=int(leaf), views=self.views[views], path=integers(path))

    def read_views(self, text):
        found, at = [], 0
        while at < len(text):
            match = VIEW.match(text, at)
            if match is None:
                raise BadPlan(self.place())
            buffer, first, elem, extents, strides = match.groups()
            found.append(View(Slot(int(buffer), int(first)), elem.decode(), integers(extents), integers(strides)))
            at = match.end()
        return found


SLOT, ELEM, LIST = r"(\d+)\s*\+\s*(\d+)", r"(byte|int|long)", r"\[([^\]]*)\]"
VIEW = re.compile(rf"\s*{SLOT}\s*{ELEM}\s*{LIST}\s*{LIST}\s*(?:,|$)".encode())
# What may stand in a term, by its first word: its form, with the blanks behind it, and what makes it of its groups.
FORMS = {
    word: (re.compile((form + r"\s*").encode()), make)
    for word, form, make in (
        (b"}", r"\}", None),
        (b"seq", r"(seq)\s*\{", Reader.part),
        (b"par", r"(par)\s*\{", Reader.part),
        (b"at", rf"at\s+(\d+)\s*{LIST}\s*\{{", Reader.at_node),
        (b"copy", rf"copy\s+{SLOT}\s+{SLOT}\s+(\d+)\s*;", Reader.copy),
        (b"fill", rf"fill\s+{SLOT}\s*{ELEM}\s+(\d+)\s*(-?)\s*(\d+|lowest)\s*;", Reader.fill),
        (b"acc", rf"acc\s*(\+|\*|\bmin\b|\bmax\b|&|\||\^)\s*{ELEM}\s+{SLOT}\s+{SLOT}\s+(\d+)\s*;", Reader.accumulate),
        (b"run", rf"run\s+(\d+)\s*\(([^)]*)\)\s*{LIST}\s*;", Reader.run),
    )
}


def read_plan(text):
    """The plan file of these bytes."""
    return Reader(text).read()
