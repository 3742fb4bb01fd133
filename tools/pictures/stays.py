"""What stands in which buffer from when to when, as far as a report and a trace tell it.

A *stay* is what a transfer brings into a buffer at one node: rows that are copied in or filled, up to the last event
that touches them before other rows arrive over them. The entry's arrays stay for the whole run.

A trace names bytes, not buffers, and buffers of different calls may lie over one another. What is concluded here rests
on what docs/LANGUAGE.md says of every run: each event lies in one buffer, buffers in use at one time share no byte, the
rows of an argument follow one another and have one length, and an argument that has a buffer is copied in or filled
whole before its callee runs. From the program and the mapping come the modes of arguments, and which arrays calls pass.
Where all this leaves several buffers, a stay has all their names.
"""
from bisect import bisect_left, bisect_right
from collections import deque
from dataclasses import dataclass, field
from typing import List, Optional

from texts import ACC, COPY, FILL, LEAF, WIDTHS

# How far ahead the rows of a transfer are looked for before a buffer is kept as a possible one.
AHEAD = 20000
ENTRY = "entry"


@dataclass
class Place:
    """Buffers of the report that nothing tells apart: one level, offset, size and name."""

    level: int
    offset: int
    size: int
    instance: str
    array: str
    forms: int = 1

    @property
    def end(self):
        return self.offset + self.size


@dataclass
class Row:
    """Bytes of a stay, from `at` within it, and the bytes of another stay that they came from or went to."""

    at: int
    size: int
    other: Optional["Stay"]
    other_at: int


@dataclass(eq=False)
class Stay:
    node: tuple
    names: List[int]  # the places that it may be in, one where it is certain
    at: int
    size: int  # of its place, rounded up; of the smallest where there are several
    first: int
    last: int
    how: str  # ENTRY, COPY or FILL
    key: tuple = ()  # what its rows have in common: their kind, the stay that they come from, their length
    rows: List[Row] = field(default_factory=list)
    gone: List[Row] = field(default_factory=list)
    partial: bool = False  # whether its rows may be only some of an argument's
    combined: bool = False  # whether it goes by accumulation
    leaves: List[int] = field(default_factory=list)
    block: str = ""  # the elements of the entry's array, as A[4..8]

    @property
    def end(self):
        return self.at + self.size

    @property
    def reach(self):
        return self.at + sum(row.size for row in self.rows)


def places_of(report):
    found = {}
    for buffer in report.buffers:
        key = (buffer.level, buffer.offset, buffer.size, buffer.instance, buffer.array)
        if key in found:
            found[key].forms += 1
        else:
            found[key] = Place(*key)
    return list(found.values())


@dataclass
class Layout:
    """Buffers that stand one behind another, as those of one call do, and how many calls have the same."""

    buffers: List[object]
    calls: int = 1

    @property
    def end(self):
        return self.buffers[-1].end


def layouts_of(report, mapping):
    """The layouts of each level. Where calls of one instance follow one another in the report, the next one begins
    where a buffer doesn't stand behind the one before it, or has a name again that no second set explains."""
    if report.layouts is not None:
        return report.layouts
    doubled = {callee for note in report.notes if note.param is None and note.instance in mapping.instances
               for callee in mapping.instances[note.instance].calls.values()}
    found, last = [[] for _ in report.levels], None
    for buffer in report.buffers:
        before = last.buffers[-1] if last else None
        goes_on = before and (buffer.level, buffer.instance, buffer.offset) == (before.level, before.instance, before.end)
        if goes_on and (buffer.instance in doubled or buffer.array not in {other.array for other in last.buffers}):
            last.buffers.append(buffer)
        else:
            last = Layout([buffer])
            found[buffer.level].append(last)
    return [merge(layouts) for layouts in found]


def merge(layouts):
    merged = []
    for layout in layouts:
        same = next((other for other in merged if other.buffers == layout.buffers), None)
        if same:
            same.calls += 1
        else:
            merged.append(layout)
    return merged


def comes_from(source, event):
    """Whether this row may come from the argument that an earlier one came from, by the stay that it was found in."""
    return source is None or source.partial or source.at <= event.source_at < source.end


def round_up(size):
    return (size + 7) // 8 * 8


class Tracker:
    def __init__(self, report, mapping, variants, trace):
        self.report, self.mapping, self.variants, self.trace = report, mapping, variants, trace
        self.places = places_of(report)
        self.starts = {}
        for number, place in enumerate(self.places):
            self.starts.setdefault((place.level, place.offset), []).append(number)
        self.writes, self.stays, self.open, self.feeds, self.in_place = {}, [], {}, {}, {}
        self.waiting, self.present, self.unsure = {}, {}, set()
        leaves = sum(event.kind == LEAF for event in trace.events)
        self.whole = trace.trap is None and leaves == report.leaves
        self.hoisted = self.hoisted_params()
        self.overlaps = any(note.param is None for note in report.notes)
        self.entry_end = 0
        self.note_writes()
        self.begin_entry()

    def variant_of(self, instance):
        known = self.mapping.instances.get(instance)
        return self.variants.get((known.task, known.variant)) if known else None

    def hoisted_params(self):
        """(instance, parameter) for each argument that leaves a loop, by the caller and the task that it calls."""
        found = set()
        for note in self.report.notes:
            caller = self.mapping.instances.get(note.instance)
            if note.param and caller:
                found |= {(callee, note.param) for callee in caller.calls.values()}
        return found

    # ---- writes, node by node, for a look ahead

    def note_writes(self):
        self.position, self.leaf_calls, self.work = {}, {}, {}
        for number, event in enumerate(self.trace.events):
            listed = (self.leaf_calls if event.kind == LEAF else self.writes).setdefault(event.to, [])
            self.position[number] = len(listed)
            listed.append(number)
            if event.kind == LEAF or event.source and event.source != event.to:
                self.work.setdefault(event.source or event.to, []).append(number)

    def is_late(self, first, last, source):
        """Whether a row that comes at event `last` can't belong to the argument whose rows began at `first`. Arguments are
        complete before their call works; where transfers overlap, at most one leaf call before it ends meanwhile. And
        what they are copied from isn't brought in anew."""
        node = self.trace.events[first].to
        if not self.overlaps:
            late = self.count_between(self.work, node, first, last) > 0
        else:
            late = self.count_between(self.leaf_calls, node, first, last) > 1
        return late or source is not None and self.is_replaced(source, first, last)

    @staticmethod
    def count_between(listed, node, first, last):
        numbers = listed.get(node, [])
        return bisect_left(numbers, last) - bisect_right(numbers, first)

    def is_replaced(self, source, first, last):
        """Whether something is copied from above over the stay between two events."""
        listed = self.writes.get(source.node, [])
        for number in listed[bisect_right(listed, first) : bisect_left(listed, last)]:
            event = self.trace.events[number]
            above = event.kind == COPY and event.source[0] < event.to[0]
            if above and event.to_at < source.end and source.at < event.to_at + event.size:
                return True
        return False

    def rows_of(self, number, place, source):
        """The events from this one on that bring rows of one length, from one stay or by fills, into all of the place,
        one behind the other, before anything else is written there; none where they don't. A trace that isn't whole may
        end before."""
        events, first = self.trace.events, self.trace.events[number]
        listed, position = self.writes[first.to], self.position[number]
        reach, rows = first.to_at + first.size, [number]
        if reach > place.end or (self.is_one_row(place) and round_up(first.size) != place.size):
            return []
        stop = min(len(listed), position + AHEAD)
        while reach < place.end:
            position += 1
            if position >= stop:
                break
            event = events[listed[position]]
            if event.to_at >= place.end or event.to_at + event.size <= place.offset:
                continue
            goes_on = (event.to_at, event.size, event.kind, event.source) == (reach, first.size, first.kind, first.source)
            if not goes_on or reach + event.size > place.end or not comes_from(source, event):
                break
            if self.is_late(rows[-1], listed[position], source):
                break
            reach += event.size
            rows.append(listed[position])
        ends_early = position >= stop and (stop < len(listed) or not self.whole)
        return rows if ends_early or round_up(reach - place.offset) == place.size else []

    def is_one_row(self, place):
        array = self.array_of(place)
        return array is not None and len(array.extents) == 1

    # ---- stays that are open

    def begin_entry(self):
        variant = self.variant_of(self.mapping.entry)
        params = variant.params if variant else []
        end = len(self.trace.events) - 1
        for buffer, param in zip(self.report.buffers, params):
            number = next(n for n in self.starts[(buffer.level, buffer.offset)] if self.places[n].array == param.name)
            self.add(Stay((0, 0), [number], buffer.offset, buffer.size, 0, max(end, 0), ENTRY))
            self.entry_end = buffer.end

    def add(self, stay):
        here = self.open.setdefault(stay.node, [])
        here[:] = [other for other in here if other.end <= stay.at or other.at >= stay.end]
        here.insert(bisect_right([other.at for other in here], stay.at), stay)
        self.stays.append(stay)

    def holding(self, node, at, size):
        here = self.open.get(node, [])
        found = bisect_right([other.at for other in here], at) - 1
        if found >= 0 and here[found].end >= at + size:
            return here[found]
        return None

    # ---- events

    def run(self):
        for number, event in enumerate(self.trace.events):
            if event.kind == LEAF:
                self.call_leaf(number, event)
            else:
                self.move(number, event)
        names = Blocks(self)
        for stay in self.stays:
            stay.block = names.of(stay)
        return self

    def move(self, number, event):
        source = self.holding(event.source, event.source_at, event.size) if event.source else None
        to = self.arrive(number, event, source) if self.arrives(event) else None
        if to is None:
            to = self.holding(event.to, event.to_at, event.size)
            if source and to:
                row = Row(event.source_at - source.at, event.size, to, event.to_at - to.at)
                source.gone.append(row)
                source.combined |= event.kind == ACC
        for stay in (source, to):
            if stay:
                stay.last = max(stay.last, number)

    def arrives(self, event):
        """Whether the event may bring an argument in. At one node the callee's buffers stand behind the caller's, so
        that a copy to a higher byte goes in and one to a lower byte comes back."""
        if event.kind == ACC:
            return False
        if event.to == (0, 0) and event.to_at < self.entry_end:
            return False
        return event.kind == FILL or (event.to[0], event.to_at) > (event.source[0], event.source_at) and (
            event.to[0] > event.source[0] or event.to == event.source
        )

    def arrive(self, number, event, source):
        key = (event.kind, event.source if source and source.partial else source, event.size)
        going_on = [stay for stay in self.open.get(event.to, []) if stay.key == key and stay.reach == event.to_at]
        row = Row(0, event.size, source, event.source_at - source.at if source else 0)
        for stay in going_on:
            fitting = [name for name in stay.names if self.places[name].end >= event.to_at + event.size]
            if event.to_at < stay.end and fitting:
                # A row that reaches behind the smallest of the possible places tells that it is a larger one.
                stay.names = fitting
                stay.size = min(self.places[name].end for name in fitting) - stay.at
                row.at = event.to_at - stay.at
                stay.rows.append(row)
                return stay
        names = self.possible(number, source)
        partial = False
        for stay in going_on:
            # Of places of several sizes the smallest is full, and these rows may belong to a larger one.
            more = [n for n in stay.names if self.places[n].end >= event.to_at + event.size and n not in names]
            names, partial = names + more, partial or bool(more)
        if not names:
            return None
        held = self.holding(event.to, event.to_at, event.size) if event.kind == FILL else None
        if held and held.names != names and self.may_be_in_place(held):
            # Whether zeros are filled in for a call, or in place into what is there, can't be told.
            names, partial = names + [name for name in held.names if name not in names], True
        end = min(self.places[name].end for name in names)
        stay = Stay(event.to, names, event.to_at, end - event.to_at, number, number, event.kind, key, [row])
        stay.partial = partial or len({(self.places[name].offset, self.places[name].size) for name in names}) > 1
        self.add(stay)
        self.wait(stay)
        return stay

    def possible(self, number, source):
        """The places into which this event may bring the first row of an argument or a local."""
        rows = self.candidates(number, source)
        return [short for short in rows if not any(self.refuted(short, long, rows) for long in rows)]

    def candidates(self, number, source):
        """Places that begin at the event's byte and that all writes behind it allow, each with the events of its rows."""
        event, found = self.trace.events[number], {}
        for name in self.starts.get((event.to[0], event.to_at), []):
            place = self.places[name]
            if self.may_take(event.kind, place) and self.may_come(source, place) and self.is_called(number, place):
                rows = self.rows_of(number, place, source)
                if rows:
                    found[name] = rows
        return found

    def refuted(self, short, long, rows):
        """Whether the rows behind those of the shorter place can only be more of the longer one: no other argument begins
        there."""
        if len(rows[long]) <= len(rows[short]):
            return False
        behind = rows[long][len(rows[short])]
        event = self.trace.events[behind]
        source = self.holding(event.source, event.source_at, event.size) if event.source else None
        held = self.holding(event.to, event.to_at, event.size) if event.kind == FILL else None
        place = self.places[short]
        if held and (held.end <= place.offset or held.at >= place.end) and self.may_be_in_place(held):
            return False
        return not self.candidates(behind, source)

    def may_be_in_place(self, stay):
        """Whether an array of this stay is passed at its own level to an argument that begins as zeros: where that one
        is in place, it is filled where it stands."""
        key = frozenset(self.names_of(stay))
        if key not in self.in_place:
            outs = [
                (instance.name, param.name)
                for instance in self.mapping.instances.values()
                for param in (self.variant_of(instance.name).params if self.variant_of(instance.name) else [])
                if param.mode == "out" and instance.level == self.report.levels[stay.node[0]].name
            ]
            self.in_place[key] = any(key & self.feeding(*out) for out in outs)
        return self.in_place[key]

    def array_of(self, place):
        variant = self.variant_of(place.instance)
        return variant.array(place.array) if variant else None

    def may_take(self, kind, place):
        array = self.array_of(place)
        return array is None or array.mode in (("in", "inout") if kind == COPY else ("out", "inout", "local"))

    def may_come(self, source, place):
        """Whether a call passes the array that the row comes from, or a block of it, as this argument."""
        if source is None:
            return True
        return bool(self.names_of(source) & self.feeding(place.instance, place.array))

    def feeding(self, instance, array):
        """(instance, array) of the buffers from which this argument is copied: its callers' arrays, and where a caller's
        array may be in place in a buffer of its own callers at the same level, those too."""
        key = (instance, array)
        if key not in self.feeds:
            found = self.feeds[key] = set()
            for caller, passed in self.passed_to(instance, array):
                found.add((caller, passed))
                above = self.mapping.instances[caller].level
                found |= {(name, other) for name, other in self.feeding(caller, passed)
                          if self.mapping.instances[name].level == above}
        return self.feeds[key]

    def passed_to(self, instance, array):
        callee = self.mapping.instances.get(instance)
        variant = self.variant_of(instance)
        names = [param.name for param in variant.params] if variant else []
        if array not in names:
            return
        for caller in self.mapping.instances.values():
            body = self.variant_of(caller.name)
            for call in body.calls if body else []:
                if call.task == callee.task and caller.calls.get(call.task) == instance and len(call.arrays) == len(names):
                    yield caller.name, call.arrays[names.index(array)]

    def is_called(self, number, place):
        """Whether what arrives may be for this instance: behind what arrives for a leaf variant, the next leaf call of the
        node is one of that instance."""
        known = self.mapping.instances.get(place.instance)
        if known is None or known.variant != "leaf":
            return True
        node = self.trace.events[number].to
        listed = self.leaf_calls.get(node, [])
        behind = bisect_right(listed, number)
        if behind == len(listed):
            return not self.whole
        return self.trace.events[listed[behind]].word == place.instance

    # ---- leaf calls: each takes what arrived for it, the earliest first

    def names_of(self, stay):
        return {(self.places[name].instance, self.places[name].array) for name in stay.names}

    def wait(self, stay):
        for instance, array in self.names_of(stay):
            known = self.mapping.instances.get(instance)
            if known and known.variant == "leaf":
                self.waiting.setdefault((stay.node, instance, array), deque()).append(stay)
        if stay.partial or len(self.names_of(stay)) > 1:
            self.doubt(stay)

    def doubt(self, stay):
        for instance, _ in self.names_of(stay):
            self.unsure.add((stay.node, instance))

    def call_leaf(self, number, event):
        if (event.to, event.word) in self.unsure:
            return self.call_unsurely(number, event)
        variant = self.variant_of(event.word)
        for array in variant.params + variant.locals if variant else []:
            key = (event.to, event.word, array.name)
            if self.waiting.get(key):
                self.present[key] = self.waiting[key].popleft()
            elif (event.word, array.name) not in self.hoisted:
                continue
            stay = self.present.get(key)
            if stay and stay in self.open.get(event.to, []):
                stay.leaves.append(number)
                stay.last = max(stay.last, number)

    def call_unsurely(self, number, event):
        """Where it can't be told what arrived for which call, the call counts as touching all that is there for it."""
        for stay in self.open.get(event.to, []):
            if any(instance == event.word for instance, _ in self.names_of(stay)):
                stay.leaves.append(number)
                stay.last = max(stay.last, number)


class Blocks:
    """Which elements of the entry's arrays a stay is, by where its rows came from and where they go."""

    def __init__(self, tracker):
        self.places = tracker.places
        self.shapes = {}
        variant = tracker.variant_of(tracker.mapping.entry)
        sizes = tracker.mapping.sizes
        for param in variant.params if variant else []:
            extents = [int(word) if word.isdigit() else sizes.get(word, 0) for word in param.extents]
            self.shapes[param.name] = (WIDTHS.get(param.elem, 1), extents)

    def of(self, stay):
        if stay.how == ENTRY:
            return self.places[stay.names[0]].array
        if stay.partial:
            return ""
        total = sum(row.size for row in stay.rows)
        first = self.origin(stay, 0)
        if first is None:
            return ""
        base, start = first
        if base.how != ENTRY:
            return "" if base is stay or len(base.names) > 1 else self.part_of(base, start, total)
        array = self.places[base.names[0]].array
        width, extents = self.shapes[array]
        last = self.origin(stay, total - width)
        if last is None or last[0] is not base or start % width:
            return ""
        return self.range_text(array, extents, start // width, last[1] // width, total // width)

    def part_of(self, base, start, total):
        """What so many bytes of an array that isn't the entry's are called."""
        place = self.places[base.names[0]]
        whole = start == 0 and total == sum(row.size for row in base.rows)
        return f"{place.instance} {place.array}" if whole else f"part of {place.instance} {place.array}"

    def range_text(self, array, extents, first, last, count):
        low, high = self.coordinates(extents, first), self.coordinates(extents, last)
        inside = 1
        for a, b in zip(low, high):
            inside *= b - a + 1
        if inside != count or any(a > b for a, b in zip(low, high)):
            return ""
        return array + "".join(f"[{a}..{b + 1}]" for a, b in zip(low, high))

    @staticmethod
    def coordinates(extents, number):
        found = []
        for extent in reversed(extents):
            found.append(number % extent if extent else 0)
            number //= extent or 1
        return found[::-1]

    def origin(self, stay, at):
        """The stay and the byte in it that this byte was copied from, or goes to where it was filled, as far up as can
        be told. What is combined into another array goes to that one, and what comes there goes no further."""
        begun = stay
        for _ in range(200):
            if stay.partial:
                return None
            if stay.how == ENTRY or (stay is not begun and (stay.combined or begun.combined)):
                return stay, at
            row = self.row_at(stay.rows if stay.how == COPY else stay.gone, at)
            if row is None:
                return (stay, at) if stay.how == FILL else None
            if row.other is None:
                return None
            stay, at = row.other, row.other_at + at - row.at
        return None

    @staticmethod
    def row_at(rows, at):
        """Rows of a transfer follow one another and have one length, so that the number of a byte's row is known; a
        stay that goes several times has the first of them."""
        if not rows:
            return None
        number = at // rows[0].size
        if number < len(rows) and rows[number].at <= at < rows[number].at + rows[number].size:
            return rows[number]
        return next((row for row in rows if row.at <= at < row.at + row.size), None)
