"""When each event of a plan begins, if each takes as long as it weighs: as early as the plan's order allows.

Events and weights are those of docs/FORMATS.md, sections plan files and cost files. Nothing is said of real time.
"""
import heapq
from collections import defaultdict
from dataclasses import dataclass
from typing import List, Optional

from plans import WIDTHS, Part
from texts import BadText

KINDS = ("down", "up", "within", "fill", "acc", "leaf")


@dataclass
class Bar:
    """An event, drawn as long as it weighs."""

    number: int  # in the order of the plan file
    kind: str
    line: str
    begin: int
    weight: int
    heavy: bool = False  # on the heaviest chain
    row: int = 0
    lane: int = 0

    @property
    def end(self):
        return self.begin + self.weight


@dataclass
class Row:
    """What a node performs, or what is carried over the edge above it; bars at one time lie in lanes of their own."""

    name: str
    level: int
    index: int
    carries: bool
    bars: List[Bar]
    lanes: int = 0


class Open:
    """A part of the plan: when what comes next in it begins, when it ends, and which of its items are on its chain."""

    def __init__(self, part, begin):
        self.part, self.begin, self.end, self.chain = part, begin, begin, []
        self.beside = part is not None and part.kind == "par"

    def next(self):
        return self.begin if self.beside else self.end

    def add(self, item, end):
        """Of items that stand beside one another the first of the heaviest is on the chain."""
        if not self.beside:
            self.chain.append(item)
        elif not self.chain or end > self.end:
            self.chain = [item]
        self.end = max(self.end, end)


def place(plan, weights):
    """When each event begins, and the whole plan as a part that has ended."""
    begins, stack = [], [Open(None, 0)]
    for item in plan.items:
        while stack[-1].part is not item.within:
            close(stack)
        begin = stack[-1].next()
        if isinstance(item, Part):
            stack.append(Open(item, begin))
            continue
        stack[-1].add(len(begins), begin + weights[len(begins)])
        begins.append(begin)
    while len(stack) > 1:
        close(stack)
    return begins, stack[0]


def close(stack):
    ended = stack.pop()
    if ended.chain:
        stack[-1].add(ended, ended.end)


def chain_of(whole):
    """The events of the heaviest chain, in order; parts may lie a thousand deep."""
    found, left = [], [whole]
    while left:
        item = left.pop()
        if isinstance(item, Open):
            left += reversed(item.chain)
        else:
            found.append(item)
    return found


def put_in_lanes(row):
    """Each bar in the first lane that is free when it begins."""
    busy, free = [], []
    row.bars.sort(key=lambda bar: (bar.begin, bar.number))
    for bar in row.bars:
        while busy and busy[0][0] <= bar.begin:
            heapq.heappush(free, heapq.heappop(busy)[1])
        if free:
            bar.lane = heapq.heappop(free)
        else:
            bar.lane = row.lanes
            row.lanes += 1
        heapq.heappush(busy, (bar.end, bar.lane))


class Timeline:
    """Of a plan file (a Planned), the entries of a cost file, and the machine, where there is one."""

    def __init__(self, filed, costs, machine=None):
        if len(costs) != filed.levels:
            raise BadText(f"the plan's levels are {filed.levels}, and the cost file's entries {len(costs)}")
        self.filed, self.costs, self.machine = filed, costs, machine or filed.machine
        self.names = [cost.level for cost in costs]
        plan = filed.plan
        self.depths = [self.depth(event) for event in plan.events]
        weights = [self.weight(*pair) for pair in zip(plan.events, self.depths)]
        begins, whole = place(plan, weights)
        self.total, self.chain = whole.end, chain_of(whole)
        kinds = [self.kind(event) for event in plan.events]
        told = zip(kinds, filed.lines, begins, weights)
        self.bars = [Bar(number, *parts) for number, parts in enumerate(told)]
        for number in self.chain:
            self.bars[number].heavy = True
        self.rows = self.make_rows()

    # ---- events

    def level(self, slot):
        return self.filed.plan.buffers[slot.buffer].level

    def depth(self, event):
        """The level whose entry weighs the event: that of a transfer's memory that lies farther from the root."""
        if event.kind == "run":
            return self.filed.plan.nodes[event.nodes[-1]].level
        return max(self.level(slot) for slot in (event.source, event.to) if slot)

    def weight(self, event, depth):
        cost = self.costs[depth]
        return cost.leaf if event.kind == "run" else cost.row + cost.byte * event.bytes()

    def kind(self, event):
        if event.kind != "copy":
            return "leaf" if event.kind == "run" else event.kind
        down = self.level(event.to) - self.level(event.source)
        return "down" if down > 0 else "up" if down < 0 else "within"

    def carries(self, event):
        """Whether it goes from one level to another."""
        return event.source is not None and self.level(event.source) != self.level(event.to)

    # ---- rows

    def node_name(self, level, index):
        node, alone = self.machine.nodes[level][index], len(self.machine.nodes[level]) == 1
        if self.machine is not self.filed.machine and node.name:
            return node.name
        return self.names[level] if alone else f"{self.names[level]} {index}"

    def in_order(self):
        """The nodes, each before those below it."""
        left = [self.filed.machine.nodes[0][0]]
        while left:
            node = left.pop()
            yield node.level, node.index
            left += reversed(node.below)

    def make_rows(self):
        """The rows that have a bar: of each node what goes to it and comes from it, and then what it performs."""
        held = defaultdict(list)
        for bar, event, depth in zip(self.bars, self.filed.plan.events, self.depths):
            held[(*self.filed.node_of(event, depth), self.carries(event))].append(bar)
        rows = []
        for level, index in self.in_order():
            for carries in (True, False):
                if (level, index, carries) in held:
                    name = self.node_name(level, index)
                    rows.append(Row(name, level, index, carries, held[level, index, carries]))
        for number, row in enumerate(rows):
            put_in_lanes(row)
            for bar in row.bars:
                bar.row = number
        return rows

    # ---- what waits for what

    def waits(self):
        """(a transfer, the first leaf call behind it that uses the buffer which it goes into), by number."""
        pending = defaultdict(list)
        for number, event in enumerate(self.filed.plan.events):
            if event.kind == "run":
                for key in dict.fromkeys(self.buffer_of(event, view.slot.buffer) for view in event.views):
                    behind = {other for other in pending[key] if self.is_behind(event, other)}
                    pending[key] = [other for other in pending[key] if other not in behind]
                    yield from ((other, number) for other in sorted(behind))
            elif self.carries(event):
                pending[self.buffer_of(event, event.to.buffer)].append(number)

    def buffer_of(self, event, buffer):
        """The buffer of this scope."""
        owner = self.filed.owner(event.within, buffer)
        return owner and id(owner), buffer

    def is_behind(self, event, other):
        """Whether the plan lets the event begin only when the other one has ended, which stands before it."""
        outer, part = set(), self.filed.plan.events[other].within
        while part is not None:
            outer.add(id(part))
            part = part.within
        part = event.within
        while part is not None and id(part) not in outer:
            part = part.within
        return part is not None and part.kind != "par"

    def span_lines(self):
        """As `sq span` writes the chain."""
        bars = [self.bars[number] for number in self.chain]
        first = f"span {self.total} events {len(bars)} of {len(self.bars)}"
        return [first] + [f"{bar.weight} {bar.line}" for bar in bars]

    def told(self):
        """In a sentence, what the heaviest chain weighs."""
        count, several = len(self.bars), len(self.chain)
        return f"The heaviest chain weighs {self.total:,} and has {several:,} of {count:,} event{'' if count == 1 else 's'}."


NOTHING = "Nothing is claimed of time: an event is as long as it weighs, and the weights are those of the cost file."
