"""Which elements of the entry's arrays a plan file's leaf calls write and read.

A byte of a memory is *written* where it came, by whatever copies, from an `out` or `inout` argument of a leaf call; it
is *wanted* where it goes to an `in` or `inout` argument of one. The events are taken in the order of the file, which
gives the same as every other one.
"""
from dataclasses import dataclass

from plans import WIDTHS, Slot

MOST_BYTES = 1 << 28


@dataclass
class Uncovered:
    """Elements of an array that no leaf call writes, or reads."""

    array: str
    is_written: bool  # whether writes are looked at
    count: int
    total: int
    blocks: list  # each with its ranges


class Memories:
    """A flag for each byte of each node, as far as the node's buffers reach."""

    def __init__(self, plan):
        self.plan = plan
        ends = {}
        for buffer in plan.buffers:
            ends[buffer.level] = max(ends.get(buffer.level, 0), buffer.offset + buffer.size)
        sizes = [ends.get(node.level, 0) for node in plan.nodes]
        self.flags = [bytearray(size) for size in sizes] if sum(sizes) <= MOST_BYTES else None

    def at(self, event, slot, size):
        """The node of a slot, and the slice of its bytes."""
        buffer = self.plan.buffers[slot.buffer]
        begin = buffer.offset + slot.at
        return event.nodes[buffer.level], slice(begin, begin + size)

    def get(self, place):
        node, bytes_ = place
        return self.flags[node][bytes_]

    def set(self, place, flags):
        node, bytes_ = place
        self.flags[node][bytes_] = flags

    def fill(self, place, flag):
        node, bytes_ = place
        self.flags[node][bytes_] = bytes([flag]) * (bytes_.stop - bytes_.start)

    def views(self, event, modes, wanted):
        """The rows of the arguments of a leaf call that have one of the wanted modes."""
        for view, mode in zip(event.views, modes):
            if mode in wanted:
                yield from (self.at(event, slot, size) for slot, size in rows_of(view))


def rows_of(view):
    """The rows of a view: where each begins, and its bytes."""
    width = WIDTHS[view.elem]
    starts = [view.slot.at]
    for extent, stride in zip(view.extents[:-1], view.strides[:-1]):
        starts = [start + number * stride * width for start in starts for number in range(extent)]
    for start in starts:
        if view.strides[-1] == 1:
            yield Slot(view.slot.buffer, start), view.extents[-1] * width
        else:
            for number in range(view.extents[-1]):
                yield Slot(view.slot.buffer, start + number * view.strides[-1] * width), width


def either(one, other):
    """Flags that are set in one of two lists."""
    joined = int.from_bytes(one, "little") | int.from_bytes(other, "little")
    return joined.to_bytes(len(one), "little")


def written_by(plan, memories, modes):
    """Performs the events; each byte that a leaf call writes gets a flag."""
    for event in plan.events:
        if event.kind == "run":
            for place in memories.views(event, modes[event.leaf], ("out", "inout")):
                memories.fill(place, 1)
            continue
        to = memories.at(event, event.to, event.bytes())
        if event.kind == "fill":
            memories.fill(to, 0)
            continue
        flags = memories.get(memories.at(event, event.source, event.bytes()))
        memories.set(to, either(flags, memories.get(to)) if event.kind == "acc" else flags)


def wanted_by(plan, memories, modes):
    """The events backwards; in the end each byte that reaches a leaf call has a flag."""
    for event in reversed(plan.events):
        if event.kind == "run":
            for place in memories.views(event, modes[event.leaf], ("in", "inout")):
                memories.fill(place, 1)
            continue
        to = memories.at(event, event.to, event.bytes())
        wanted = bytes(memories.get(to))
        if event.kind != "acc":
            memories.fill(to, 0)
        if event.kind != "fill":
            source = memories.at(event, event.source, event.bytes())
            memories.set(source, either(wanted, memories.get(source)))


# ---- which elements


def flags_of(plan, memories, array):
    """A flag for each element of an array of the entry."""
    width, buffer = WIDTHS[array.elem], plan.buffers[array.buffer]
    count = 1
    for extent in array.extents:
        count *= extent
    return bytes(memories.flags[0][buffer.offset : buffer.offset + count * width : width])


def blocks_of(flags, extents):
    """The elements without a flag as blocks, each with its ranges: equal neighbours are joined."""
    if len(extents) == 1:
        return [[pair] for pair in runs_of(flags)]
    size = len(flags) // extents[0]
    found, begin = [], 0
    parts = [flags[number * size : (number + 1) * size] for number in range(extents[0])]
    for number in range(1, len(parts) + 1):
        if number == len(parts) or parts[number] != parts[begin]:
            found += [[(begin, number), *block] for block in blocks_of(parts[begin], extents[1:])]
            begin = number
    return found


def runs_of(flags):
    """From where on and before where there are no flags."""
    at = flags.find(0)
    while at >= 0:
        end = flags.find(1, at)
        end = len(flags) if end < 0 else end
        yield at, end
        at = flags.find(0, end) if end < len(flags) else -1


def uncovered(plan, modes):
    """What no leaf call writes of `out` arrays, and reads of `in` arrays; None where the memories are too large."""
    found = []
    for is_written, mode, perform in ((True, "out", written_by), (False, "in", wanted_by)):
        memories = Memories(plan)
        if memories.flags is None:
            return None
        perform(plan, memories, modes)
        for array in plan.arrays:
            flags = flags_of(plan, memories, array) if array.mode == mode else b""
            if 0 in flags:
                blocks = blocks_of(flags, array.extents)
                found.append(Uncovered(array.name, is_written, flags.count(0), len(flags), blocks))
    return found


MOST_BLOCKS = 4


def uncovered_text(one):
    """As `no leaf call writes 6 of the 24 elements of B, which stay 0: B[18..24]`."""
    shown = [one.array + "".join(f"[{begin}..{end}]" for begin, end in block) for block in one.blocks[:MOST_BLOCKS]]
    more = f", and {len(one.blocks) - MOST_BLOCKS} blocks more" if len(one.blocks) > MOST_BLOCKS else ""
    verb, zeros = ("writes", ", which stay 0") if one.is_written else ("reads", "")
    many = f"{one.count} of the {one.total} elements of {one.array}"
    return f"no leaf call {verb} {many}{zeros}: {', '.join(shown)}{more}"
