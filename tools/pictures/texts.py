"""Reads what sq writes: reports, traces and tables of choices. docs/FORMATS.md has their lines."""
import re
from dataclasses import dataclass, field
from functools import cached_property, lru_cache
from typing import List, Optional

WIDTHS = {"byte": 1, "int": 4, "long": 8}


class BadText(Exception):
    """A text that isn't of its format, with what is wrong and where."""


# ---- reports


@dataclass
class Level:
    name: str
    nodes: int
    capacity: int
    need: int
    used: int
    own: List[tuple] = field(default_factory=list)  # (name, capacity, need) of each named node

    def node_name(self, index):
        return self.name if self.nodes == 1 else f"{self.name} {index}"

    @cached_property
    def needs(self):
        return {name: need for name, _, need in self.own}

    def need_of(self, memory):
        """What a memory of the level needs: a named one its own bytes, others those of the level."""
        return self.needs.get(memory.name, self.need)

    def lacks(self, memory):
        return self.need_of(memory) > memory.capacity

    def reach(self, memory):
        """The byte up to which a memory is drawn: its capacity, or its need where that is more."""
        return max(memory.capacity, self.need_of(memory))


@dataclass
class Buffer:
    level: int
    offset: int
    size: int
    instance: str
    array: str

    @property
    def end(self):
        return self.offset + self.size


@dataclass
class Note:
    """A hoisted argument, whose parameter it names, or an overlapped loop, which has none."""

    line: int
    column: int
    instance: str
    param: Optional[str]


@dataclass
class Edge:
    upper: str
    lower: str
    down: int
    up: int


@dataclass
class Report:
    levels: List[Level] = field(default_factory=list)
    buffers: List[Buffer] = field(default_factory=list)
    notes: List[Note] = field(default_factory=list)
    edges: List[Edge] = field(default_factory=list)
    leaves: int = 0
    layouts: Optional[list] = None  # by level, of a plan file, which names the buffers that stand together

    def lacking(self, machine):
        """The memories that need more than they have, with their names and needs; of a level of version 1 one."""
        for level, memories in zip(self.levels, machine.nodes):
            shown = memories if machine.version == 2 else memories[:1]
            for memory in filter(level.lacks, shown):
                yield memory.name or level.name, level.need_of(memory), memory

    def loops(self):
        """The notes, each once: a report has a line for each form of the calling instance."""
        return list(dict.fromkeys((note.line, note.column, note.instance, note.param) for note in self.notes))

    def level_number(self, name):
        for number, level in enumerate(self.levels):
            if level.name == name:
                return number
        raise BadText(f"no level of the report is called {name}")


NAME = r"[A-Za-z_][A-Za-z0-9_]*"
REPORT_LINES = {
    "level": re.compile(rf"level ({NAME}) nodes (\d+) capacity (\d+) need (\d+) used (\d+)$"),
    "node": re.compile(rf"node ({NAME}) capacity (\d+) need (\d+)$"),
    "buffer": re.compile(rf"buffer ({NAME}) (\d+) (\d+) ({NAME}) ({NAME})$"),
    "hoist": re.compile(rf"hoist (\d+):(\d+) ({NAME}) ({NAME})$"),
    "overlap": re.compile(rf"overlap (\d+):(\d+) ({NAME})$"),
    "edge": re.compile(rf"edge ({NAME}) ({NAME}) down (\d+) up (\d+)$"),
    "leaves": re.compile(r"leaves (\d+)$"),
}


def add_report_line(report, kind, words):
    if kind == "level":
        report.levels.append(Level(words[0], *map(int, words[1:])))
    elif kind == "node":
        report.levels[-1].own.append((words[0], int(words[1]), int(words[2])))
    elif kind == "buffer":
        report.buffers.append(Buffer(report.level_number(words[0]), int(words[1]), int(words[2]), words[3], words[4]))
    elif kind in ("hoist", "overlap"):
        param = words[3] if kind == "hoist" else None
        report.notes.append(Note(int(words[0]), int(words[1]), words[2], param))
    elif kind == "edge":
        report.edges.append(Edge(words[0], words[1], int(words[2]), int(words[3])))
    else:
        report.leaves = int(words[0])


def read_report(text):
    report, ended = Report(), False
    for number, line in enumerate(text.splitlines(), 1):
        kind = line.split(" ", 1)[0]
        match = REPORT_LINES[kind].match(line) if kind in REPORT_LINES else None
        if not match or ended or (kind != "level" and not report.levels):
            raise BadText(f"line {number} of the report is none: {line[:80]}")
        add_report_line(report, kind, match.groups())
        ended = kind == "leaves"
    if not ended:
        raise BadText("the report has no line `leaves` at its end")
    return report


# ---- traces

COPY, FILL, ACC, LEAF = "copy", "fill", "acc", "leaf"


@dataclass
class Event:
    """One line of a trace. A fill has no source; a leaf call has a node, `to`, and no bytes."""

    kind: str
    word: str  # the operator of an acc, the instance of a leaf call
    source: Optional[tuple]  # (level, index)
    source_at: int
    to: tuple
    to_at: int
    size: int


@dataclass
class Trace:
    events: List[Event]
    lines: List[str]
    trap: Optional[str] = None  # the line `trapped ..` behind the events


def node_and_byte(word):
    node, at = word.split(":")
    return node_of(node), int(at)


@lru_cache(maxsize=None)
def node_of(word):
    level, index = word.split(".")
    return int(level), int(index)


def read_event(line):
    words = line.split(" ")
    if words[0] == COPY and len(words) == 4:
        return Event(COPY, "", *node_and_byte(words[1]), *node_and_byte(words[2]), int(words[3]))
    if words[0] == FILL and len(words) == 3:
        return Event(FILL, "", None, 0, *node_and_byte(words[1]), int(words[2]))
    if words[0] == ACC and len(words) == 5:
        return Event(ACC, words[1], *node_and_byte(words[2]), *node_and_byte(words[3]), int(words[4]))
    if words[0] == LEAF and len(words) == 3:
        return Event(LEAF, words[2], None, 0, node_of(words[1]), 0, 0)
    raise ValueError(line)


def read_trace(text):
    trace = Trace([], text.splitlines())
    if trace.lines and trace.lines[-1].startswith("trapped "):
        trace.trap = trace.lines.pop()
    for number, line in enumerate(trace.lines, 1):
        try:
            trace.events.append(read_event(line))
        except ValueError:
            raise BadText(f"line {number} of the trace is none: {line[:80]}") from None
    return trace


# ---- tables of choices


@dataclass
class Choice:
    """A row of a table: what its plan carries, or the line of its fault."""

    number: int
    values: List[str]  # one for each tunable of the table
    traffic: Optional[int]
    refused: Optional[str]
    edges: List[Edge] = field(default_factory=list)  # of its plan, where that was asked for


@dataclass
class Table:
    tunables: List[str]  # those that have several alternatives, as INSTANCE.TUNABLE
    choices: List[Choice] = field(default_factory=list)
    best: Optional[Choice] = None

    def accepted(self):
        return [choice for choice in self.choices if choice.traffic is not None]


SETTING = rf" ({NAME}\.{NAME})=(-?\d+|\[[-\d,]*\])"
CHOICE = re.compile(rf"choice (\d{{1,4}})((?:{SETTING})*) (?:traffic (\d{{1,20}})|(refused \S.*))$", re.A)
BEST = re.compile(r"best (?:none|(\d{1,4}) traffic (\d{1,20}))$", re.A)
MOST_TUNABLES = 12  # of 4,096 choices


def add_choice(table, match):
    settings = re.findall(SETTING, match.group(2), re.A)
    tunables = [tunable for tunable, _ in settings]
    if int(match.group(1)) != len(table.choices) or (table.choices and tunables != table.tunables):
        return False
    if len(tunables) > MOST_TUNABLES:
        return False
    traffic = match.group(5) and int(match.group(5))
    table.tunables = tunables
    table.choices.append(Choice(len(table.choices), [value for _, value in settings], traffic, match.group(6)))
    return True


def read_table(text):
    table, end = Table([]), None
    for number, line in enumerate(text.splitlines(), 1):
        choice = None if end else CHOICE.match(line)
        end = None if end or choice else BEST.match(line)
        if not end and not (choice and add_choice(table, choice)):
            raise BadText(f"line {number} of the table is none: {line[:80]}")
    if not end or not table.choices:
        raise BadText("the table has no line `best` at its end")
    table.best = min(table.accepted(), key=lambda choice: choice.traffic, default=None)
    said = (end.group(1) and int(end.group(1)), end.group(2) and int(end.group(2)))
    if said != ((table.best.number, table.best.traffic) if table.best else (None, None)):
        raise BadText("the table's best choice isn't the first of those with the least traffic")
    return table
