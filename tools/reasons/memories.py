"""The nodes of a machine, at which of them each form runs, and the bytes that it needs there."""
from dataclasses import dataclass
from typing import List


@dataclass
class Memory:
    name: str  # of the node, or in version 1 of its level
    capacity: int
    below: List[int]  # the numbers of its children


def memories_of(machine):
    """The nodes of a machine, level by level from the left."""
    return even(machine) if machine.version == 1 else uneven(machine.root)


def even(machine):
    found, first, count = [], 0, 1
    for level, below in zip(machine.levels, [*machine.levels[1:], None]):
        children, after = below.children.value if below else 0, first + count
        for number in range(count):
            own = after + number * children
            found.append(Memory(level.name.text, level.capacity.value, list(range(own, own + children))))
        first, count = after, count * children
    return found


def uneven(root):
    found, row, after = [], [root], 1
    while row:
        for node in row:
            found.append(Memory(node.name.text, node.capacity.value, list(range(after, after + len(node.below)))))
            after += len(node.below)
        row = [below for node in row for below in node.below]
    return found


def child_of(turn, rule, children):
    """The child at which an iteration of a spread map runs; outside of one the first."""
    if turn is None:
        return 0
    count, number = turn
    return number * children // count if rule == "blocked" else number % children


def runs_at(forms, memories):
    """Of each form the numbers of the nodes at which it runs."""
    found = []
    for form in forms:
        if form.caller is None:
            found.append({0})
            continue
        above, rule = found[form.caller], forms[form.caller].instance.spread
        if not form.site.lower:
            found.append(above)
            continue
        turns = {row.turn for row in form.site.rows if row.form == form.number}
        found.append(
            {
                memories[node].below[child_of(turn, rule and rule.text, len(memories[node].below))]
                for node in above
                for turn in turns
            }
        )
    return found


@dataclass
class Room:
    """What a form needs of its nodes: its buffers, those that a loop that overlaps has twice, and which of the nodes
    has the least room; None where it runs nowhere."""

    own: int
    more: int
    least: Memory


def rooms_of(forms, leaves, memories, nodes):
    """`leaves` has of each form how many loops each of its arguments leaves."""
    found = []
    for form in forms:
        moved = [size for size, hoisted in buffered(form, leaves[form.number]) if not hoisted]
        held = [size for size, hoisted in buffered(form, leaves[form.number]) if hoisted]
        local = sum(form.size(name) for name in form.local_names())
        at = [memories[node] for node in sorted(nodes[form.number])]
        least = min(at, key=lambda memory: memory.capacity, default=None)
        found.append(Room(sum(moved) + sum(held) + local, sum(moved), least))
    return found


def buffered(form, leaves):
    """The arguments that have buffers: their bytes, and whether they leave a loop."""
    for param, in_place, loops in zip(form.params, form.in_place, leaves):
        if not in_place:
            yield form.size(param.name.text), loops > 0


def too_full(forms, rooms, taken):
    """The first form that lacks room where the calls of these forms overlap, with the end of its buffers; or None."""
    ends = []
    for form, room in zip(forms, rooms):
        stacked = form.site and not form.site.lower
        end = (ends[form.caller] if stacked else 0) + room.own + (room.more if form.number in taken else 0)
        if room.least and end > room.least.capacity:
            return form, end
        ends.append(end)
    return None
