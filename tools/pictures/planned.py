"""What a plan file has for a picture: its memories, where its buffers lie, and its events with what they touch.

A plan file names the buffers of each event, so nothing is concluded here from bytes: a stay is a buffer of a scope, from
the first event that touches it to the last one.
"""
from collections import defaultdict, deque
from contextlib import contextmanager
from functools import cached_property

import plans
from plans import WIDTHS
from sources import Machine, Memory
from stays import ENTRY, Layout, Place, Stay
from texts import COPY, FILL, BadText, Buffer, Edge, Level, Report, read_trace


class Numbered(Level):
    """A level of a plan file, whose nodes have numbers as in a trace."""

    def node_name(self, index):
        return f"node {self.name.split()[1]}.{index}"


@contextmanager
def sound():
    """What a text that is no sound plan file ends with."""
    try:
        yield
    except plans.BadPlan as bad:
        raise BadText(f"the plan file isn't one from {bad} on") from None
    except (IndexError, ValueError, StopIteration):
        raise BadText("the plan file isn't sound: sq exec tells where") from None


class Planned:
    """A plan file: its machine, its report with layouts, and the lines of its events."""

    def __init__(self, text):
        with sound():
            self.plan = plans.read_plan(text)
            self.arrays = {array.buffer: array for array in self.plan.arrays}
            self.levels = 1 + max(node.level for node in self.plan.nodes)
            self.first = [next(n for n, it in enumerate(self.plan.nodes) if it.level == k) for k in range(self.levels)]
            self.labels = [f"{node.level}.{n - self.first[node.level]}" for n, node in enumerate(self.plan.nodes)]
            self.machine = self.memories()
            # The buffers of the entry's arrays come first, as in a report.
            others = [n for n in range(len(self.plan.buffers)) if n not in self.arrays]
            self.order = [*self.arrays, *others]
            self.number = {buffer: number for number, buffer in enumerate(self.order)}
            buffers = [self.plan.buffers[n] for n in self.order]
            self.places = [Place(b.level, b.offset, b.size, b.instance, b.array) for b in buffers]
            self.live = {None: list(self.arrays)}
            self.owners = {}
            self.lines = [self.line(event) for event in self.plan.events]

    @cached_property
    def report(self):
        with sound():
            return self.reported()

    # ---- memories

    def memories(self):
        nodes = self.plan.nodes
        of_level = [[node for node in nodes if node.level == k] for k in range(self.levels)]
        even = all(len({(node.capacity, node.children) for node in level}) == 1 for level in of_level)
        made = [
            Memory(None if even else self.name(node.level, n), node.level, n - self.first[node.level], node.capacity)
            for n, node in enumerate(nodes)
        ]
        for memory, node in zip(made, nodes):
            memory.below = [made[n] for n in range(node.first_child, node.first_child + node.children)]
        by_level = [[memory for memory in made if memory.level == k] for k in range(self.levels)]
        return Machine(1 if even else 2, [f"level {k}" for k in range(self.levels)], by_level)

    def name(self, level, number):
        return f"node {level}.{number - self.first[level]}"

    def live_in(self, part):
        """The buffers that scopes name at the node of an `at`, this one and those round it."""
        while part is not None and part.kind != "at":
            part = part.within
        key = part and id(part)
        if key not in self.live:
            outer = part.within
            while outer is not None and (outer.kind != "at" or outer.nodes[-1] != part.nodes[-1]):
                outer = outer.within
            round_it = self.live_in(outer) if outer or part.nodes[-1] == 0 else []
            self.live[key] = list(dict.fromkeys([*round_it, *part.buffers]))
        return self.live[key]

    def reported(self):
        plan, named, needs = self.plan, [{} for _ in range(self.levels)], [0] * len(self.plan.nodes)
        scopes = [(0, tuple(self.arrays))]
        scopes += [(part.nodes[-1], tuple(self.live_in(part))) for part in plan.parts if part.kind == "at"]
        for node, buffers in scopes:
            needs[node] = max(needs[node], sum(plan.buffers[b].size for b in buffers))
            if buffers:
                level = named[plan.nodes[node].level]
                key = frozenset(buffers)
                level[key] = level.get(key, 0) + 1
        report = Report(layouts=[self.layouts(level) for level in named])
        for k, nodes in enumerate(self.machine.nodes):
            ends = [layout.end for layout in report.layouts[k]]
            told = needs[self.first[k] : self.first[k] + len(nodes)]
            level = Numbered(f"level {k}", len(nodes), min(node.capacity for node in nodes), max(told), max(ends, default=0))
            if self.machine.version == 2:
                level.own = [(node.name, node.capacity, need) for node, need in zip(nodes, told)]
            report.levels.append(level)
        report.buffers = [Buffer(p.level, p.offset, p.size, p.instance, p.array) for p in self.places]
        carried = [[0, 0] for _ in range(self.levels)]
        for event in plan.events:
            if event.source and event.to:
                upper, lower = (plan.buffers[slot.buffer].level for slot in (event.source, event.to))
                if abs(upper - lower) == 1:
                    carried[min(upper, lower)][lower < upper] += event.bytes()
        names = self.machine.names
        report.edges = [Edge(*pair, *carried[k]) for k, pair in enumerate(zip(names, names[1:]))]
        report.leaves = sum(event.kind == "run" for event in plan.events)
        return report

    def layouts(self, named):
        """Those of scopes that aren't a part of another one's."""
        whole = [key for key in named if not any(key < other for other in named)]
        found = []
        for key in whole:
            buffers = sorted((self.places[self.number[b]] for b in key), key=lambda place: (place.offset, place.end))
            buffers = [Buffer(p.level, p.offset, p.size, p.instance, p.array) for p in buffers]
            found.append(Layout(buffers, named[key]))
        return found

    # ---- events

    def node_of(self, event, level):
        return level, event.nodes[level] - self.first[level]

    def spot(self, event, slot):
        buffer = self.plan.buffers[slot.buffer]
        return f"{self.labels[event.nodes[buffer.level]]}:{buffer.offset + slot.at}"

    def line(self, event):
        """The event's line as in a trace."""
        if event.kind == "run":
            return f"leaf {self.labels[event.nodes[-1]]} {self.plan.leaves[event.leaf].instance}"
        op = f" {event.op}" if event.op else ""
        source = f" {self.spot(event, event.source)}" if event.source else ""
        return f"{event.kind}{op}{source} {self.spot(event, event.to)} {event.bytes()}"

    def events_of(self, trace):
        """The plan's event of each line of a trace: of events with one line the first that is left."""
        left = defaultdict(deque)
        for number, line in enumerate(self.lines):
            left[line].append(number)
        try:
            return [left[line].popleft() for line in trace.lines]
        except IndexError:
            raise BadText("the trace is of another plan") from None

    def steps(self, trace=None):
        """The events in the order of a trace, or of the file."""
        trace = trace or read_trace("".join(line + "\n" for line in self.lines))
        return Steps(self, trace, self.events_of(trace))

    def owner(self, part, buffer):
        """The scope round a part that names a buffer; none, if an array has it."""
        if buffer in self.arrays:
            return None
        key = (id(part), buffer)
        if key not in self.owners:
            found = part
            while found is not None and buffer not in found.buffers:
                found = found.within
            self.owners[key] = found
        return self.owners[key]

    # ---- what a page says of them

    def shapes(self):
        return [[WIDTHS[array.elem], array.extents] for array in self.plan.arrays]

    def mode(self, place):
        """That of the array which a place of the entry holds."""
        number = next((n for n, it in enumerate(self.places) if it is place), None)
        array = self.arrays.get(self.order[number]) if number is not None else None
        return array.mode if array else ""

    def tasks(self):
        """For each instance the lines of its first leaf."""
        return {leaf.instance: [leaf.task, leaf.place[0], leaf.last] for leaf in reversed(self.plan.leaves)}


class Steps:
    """What stands in which buffer from when to when."""

    def __init__(self, planned, trace, events):
        self.trace, self.places, self.planned = trace, planned.places, planned
        self.events = [planned.plan.events[number] for number in events]
        self.found, self.moved = {}, defaultdict(list)
        if self.events:
            for buffer in planned.arrays:
                place = self.places[planned.number[buffer]]
                whole = Stay((0, 0), [planned.number[buffer]], place.offset, place.size, 0, len(self.events) - 1, ENTRY)
                self.found[None, buffer] = whole
        for number, event in enumerate(self.events):
            self.perform(number, event)
        for key, stay in self.found.items():
            stay.block = self.block(stay, self.moved[key])
        self.stays = list(self.found.values())

    def perform(self, number, event):
        if event.kind == "run":
            for key in dict.fromkeys(self.touch(number, event, view.slot.buffer) for view in event.views):
                self.found[key].leaves.append(number)
            return
        slots = [slot for slot in (event.source, event.to) if slot]
        keys = [self.touch(number, event, slot.buffer) for slot in slots]
        if len(keys) == 2:
            self.move(event, event.source, keys[1])
            self.move(event, event.to, keys[0])

    def move(self, event, slot, other):
        """A row of a buffer comes from an array, or goes to one."""
        if slot.buffer in self.planned.arrays and other[1] not in self.planned.arrays:
            self.moved[other].append((slot, event.bytes()))
            self.found[other].combined |= event.kind == "acc" and slot is event.to

    def touch(self, number, event, buffer):
        """Goes on with the stay of a buffer, or begins it; its key."""
        owner = self.planned.owner(event.within, buffer)
        key = (owner and id(owner), buffer)
        if key not in self.found:
            place = self.places[self.planned.number[buffer]]
            node = self.planned.node_of(event, place.level)
            how = COPY if event.kind == "copy" else FILL
            self.found[key] = Stay(node, [self.planned.number[buffer]], place.offset, place.size, number, number, how)
        self.found[key].last = max(self.found[key].last, number)
        return key

    def block(self, stay, rows):
        """The elements of the one array that its rows came from or went to, where they are a block of it."""
        buffers = {slot.buffer for slot, _ in rows}
        if stay.how == ENTRY or len(buffers) != 1:
            return ""
        array = self.planned.arrays[buffers.pop()]
        width, cells = WIDTHS[array.elem], set()
        for slot, size in rows:
            cells |= set(range(slot.at // width, (slot.at + size) // width))
        ends = [coordinates(array.extents, cell) for cell in cells]
        lows, highs = ([pick(numbers) for numbers in zip(*ends)] for pick in (min, max))
        count = 1
        for low, high in zip(lows, highs):
            count *= high - low + 1
        if not ends or count != len(cells):
            return ""
        return array.name + "".join(f"[{low}..{high + 1}]" for low, high in zip(lows, highs))

    def trapped(self):
        """The leaf call of the trap's path."""
        word = self.trace.trap.split(" ")[4]
        path = [] if word == "-" else [int(number) for number in word.split("/")]
        return [n for n, event in enumerate(self.events) if event.kind == "run" and event.path == path][-1:]


def coordinates(extents, cell):
    found = []
    for extent in reversed(extents):
        found.insert(0, cell % extent)
        cell //= extent
    return found
