"""What isn't sound in a plan file: of a node, a buffer, an array, a leaf or an event, by its own numbers."""
from math import prod

from plans import WIDTHS
from reasons.coverage import rows_of
from sqfiles.planfiles import PlanReader
from sqfiles.programs import Local, Tunable

from saying.forms import extent_of, value_of
from saying.names import Missing, Told, counted, listed, there
from saying.snippets import Span

MOST_MEMORY, MOST_ALL, MOST_NODES, MOST_LEVELS, MOST_FAN = 1 << 30, 1 << 31, 4096, 8, 64
MOST_EXTENT, MOST_ELEMENTS = 1 << 24, 1 << 26


def buffer_text(plan, number):
    buffer = plan.buffers[number]
    return f"buffer {number} ({buffer.instance} {buffer.array})"


# ---- nodes


def bad_node(plan, _, __):
    for number, node in enumerate(plan.nodes):
        told = node_fault(plan, number, node)
        if told:
            return Told("", [Span(*node.place, f"node {number}: {told}")])
    return Told("", [], [nodes_fault(plan)])


def nodes_fault(plan):
    total = sum(node.capacity for node in plan.nodes)
    if not plan.nodes:
        return "there is no node; the first one is the root"
    if total > MOST_ALL:
        return f"all nodes have {total} bytes, and {MOST_ALL} may be"
    if len(plan.nodes) > MOST_NODES:
        return f"{len(plan.nodes)} nodes, and {MOST_NODES} may be"
    wanted = 1 + sum(node.children for node in plan.nodes)
    return f"with the root and {wanted - 1} children there are {wanted} nodes, and {len(plan.nodes)} stand here"


def node_fault(plan, number, node):
    """What is wrong with a node, as far as those before it tell."""
    first = 1 + sum(other.children for other in plan.nodes[:number])
    parent = next((other for other in plan.nodes[:number] if number in children_of(other)), None)
    level = 0 if number == 0 else None if parent is None else parent.level + 1
    deepest = max(other.level for other in plan.nodes)
    if level is None:
        return "it is no child of a node before it"
    if node.level != level:
        return f"its level is {node.level}, and it has to be {level}"
    if node.level >= MOST_LEVELS:
        return f"its level is {node.level}, and there may be {MOST_LEVELS} levels"
    if node.capacity > MOST_MEMORY:
        return f"it has {node.capacity} bytes, and {MOST_MEMORY} may be"
    if node.children > MOST_FAN:
        return f"it has {node.children} children, and {MOST_FAN} may be"
    if node.level < deepest and node.children == 0:
        return f"it has no children, and there are nodes of level {deepest}"
    if node.children and node.first_child != first:
        return f"its first child is {node.first_child}, and the next free one is {first}"
    if node.children == 0 and node.first_child:
        return f"it has no children, and says {node.first_child} in place of 0 for the first one"
    if node.first_child + node.children > len(plan.nodes):
        last = node.first_child + node.children - 1
        return f"its children are {node.first_child} to {last}, and the nodes are 0 to {len(plan.nodes) - 1}"
    return None


def children_of(node):
    return range(node.first_child, node.first_child + node.children)


# ---- buffers and arrays


def bad_buffer(plan, fault, _):
    number, buffer = there(next(((n, one) for n, one in enumerate(plan.buffers) if one.place == fault.place), None))
    deepest = max(node.level for node in plan.nodes)
    if buffer.level > deepest:
        levels = "the level 0" if deepest == 0 else f"the levels 0 to {deepest}"
        return Told(f"buffer {number} is at level {buffer.level}, and the nodes have {levels}")
    return Told(f"buffer {number} ends at byte {buffer.offset + buffer.size}, and {MOST_MEMORY} may be the last")


def bad_array(plan, fault, _):
    array = there(next((one for one in plan.arrays if one.place == fault.place), None))
    for other in plan.arrays[: plan.arrays.index(array)]:
        if other.name == array.name:
            return Told("named again", [Span(*other.place, "the first one")])
        if other.buffer == array.buffer:
            return Told(f"in buffer {array.buffer}, too", [Span(*other.place, f"in buffer {other.buffer}")])
    size = prod(array.extents) * WIDTHS[array.elem]
    if array.buffer >= len(plan.buffers):
        return Told(f"there is no buffer {array.buffer}: {counted(len(plan.buffers), 'buffer')}")
    buffer = plan.buffers[array.buffer]
    span = Span(*buffer.place, f"buffer {array.buffer} is at level {buffer.level} and has {buffer.size} bytes")
    if not 1 <= len(array.extents) <= 3:
        return Told(f"{counted(len(array.extents), 'extent')}, and 1 to 3 may be")
    if buffer.level:
        return Told("arrays are at level 0", [span])
    if buffer.size < size:
        return Told(f"{prod(array.extents)} {array.elem} are {size} bytes", [span])
    return Told("an extent isn't 1 to 16777216, or there are more than 67108864 elements")


# ---- leaves


class LeafReader(PlanReader):
    """Keeps the leaves that it reads: the word's place, the names with numbers, and the task."""

    def __init__(self, data):
        super().__init__(data)
        self.leaves = []

    def leaf(self):
        place = self.tokens[self.at - 1].place
        self.names, before = [], self.at
        super().leaf()
        self.leaves.append((place, self.names, self.tokens[before].text, self.variant_read))

    def binding(self):
        self.names.append(self.next)
        super().binding()

    def leaf_variant(self):
        self.variant_read = self.variant()


def bad_leaf(_, fault, data):
    reader = LeafReader(data)
    reader.plan()
    _, names, _, variant = there(next((one for one in reader.leaves if one[0] == fault.place), None))
    wanted = [one.text for param in variant.params for one in param.extents if one.kind == "word"]
    wanted += [one.name.text for one in variant.declared if isinstance(one, Tunable)]
    given = [one.text for one in names]
    missing = [name for name in dict.fromkeys(wanted) if name not in given]
    if missing:
        return Told(f"no number for {listed(missing)}")
    other = next((one for one in names if one.text not in wanted), None)
    if other:
        return Told("", [Span(*other.place, f"no size or tunable of the task: {listed(wanted)}")])
    again = next((one for one in names if given.count(one.text) > 1), None)
    if again:
        return Told("", [Span(*again.place, "given more than once")])
    return Told("", [], ["its names have a number each: `sq check` refuses its task, or an extent passes a limit"])


# ---- events


def bad_event(plan, fault, data):
    event = next((one for one in plan.events if one.place == fault.place), None)
    if event is None:
        return bad_part(plan, there(next((one for one in plan.parts if one.place == fault.place), None)))
    told = (slot_fault(plan, event, slot, event.bytes()) for slot in (event.source, event.to) if slot)
    if event.kind == "run":
        told = run_faults(plan, event, data)
    else:
        told = [*told, rows_fault(plan, event)]
    return there(next((one for one in told if one), None))


def bad_part(plan, part):
    """An `at`."""
    node = part.nodes[-1]
    force = part.within.nodes[-1] if part.within else 0
    if node >= len(plan.nodes):
        return Told(f"there is no node {node}: {counted(len(plan.nodes), 'node')}")
    held = plan.nodes[force]
    if node != force and node not in children_of(held):
        few = f"{held.first_child} to {held.first_child + held.children - 1}" if held.children else "none"
        return Told(f"node {node} is neither node {force}, which is in force, nor a child of it: {few}")
    level = plan.nodes[node].level
    for number in part.buffers:
        if number >= len(plan.buffers):
            return Told(f"there is no buffer {number}: {counted(len(plan.buffers), 'buffer')}")
        buffer = plan.buffers[number]
        if buffer.level != level:
            span = Span(*buffer.place, f"buffer {number} is at level {buffer.level}")
            return Told(f"node {node} is at level {level}", [span])
    raise Missing


def in_scope(plan, event):
    found, part = {array.buffer for array in plan.arrays}, event.within
    while part is not None:
        found |= set(part.buffers)
        part = part.within
    return found


def slot_fault(plan, event, slot, size):
    """What is wrong with a row."""
    if slot.buffer not in in_scope(plan, event) or slot.buffer >= len(plan.buffers):
        named = listed(map(str, sorted(in_scope(plan, event))))
        return Told(f"buffer {slot.buffer} isn't in scope; in scope are {named}")
    buffer, begin = plan.buffers[slot.buffer], slot.at
    span = Span(*buffer.place, f"buffer {slot.buffer} has {buffer.size} bytes")
    if begin + size > buffer.size:
        return Told(f"its row has the bytes {begin}..{begin + size}", [span])
    return node_end(plan, event, buffer, buffer.offset + begin + size)


def node_end(plan, event, buffer, end):
    if buffer.level >= len(event.nodes):
        return Told(f"no node of level {buffer.level} is in force here")
    node = plan.nodes[event.nodes[buffer.level]]
    if end > node.capacity:
        return Told(f"its row ends at byte {end}", [Span(*node.place, f"this node has {node.capacity} bytes")])
    return None


def rows_fault(plan, event):
    if event.source is None:
        return None
    ends = [plan.buffers[slot.buffer] for slot in (event.source, event.to)]
    first, second = (buffer.offset + slot.at for buffer, slot in zip(ends, (event.source, event.to)))
    if ends[0].level == ends[1].level and first < second + event.bytes() and second < first + event.bytes():
        size = event.bytes()
        return Told(f"its rows, {first}..{first + size} and {second}..{second + size} of one node, share bytes")
    return None


def run_faults(plan, event, data):
    if event.leaf >= len(plan.leaves):
        yield Told(f"there is no leaf {event.leaf}: {len(plan.leaves)}")
        return
    for number, view in enumerate(event.views):
        if not 1 <= len(view.extents) == len(view.strides) <= 3:
            few = f"{counted(len(view.extents), 'extent')} and {counted(len(view.strides), 'stride')}"
            yield Told(f"view {number} has {few}: 1 to 3, as many of both, may be")
        last = sum((extent - 1) * stride for extent, stride in zip(view.extents, view.strides))
        told = slot_fault(plan, event, view.slot, (last + 1) * WIDTHS[view.elem])
        yield told and Told(told.label.replace("its row", f"its view {number}"), told.spans)
        level, force = plan.buffers[view.slot.buffer].level, plan.nodes[event.nodes[-1]].level
        if level != force:
            buffer = buffer_text(plan, view.slot.buffer)
            yield Told(f"view {number} is in {buffer} of level {level}, and the leaf runs at level {force}")
    variant = leaf_task(event, data)
    yield view_fault(plan, event, variant)
    yield shared_fault(plan, event, variant)
    yield Told("its path has more than 64 numbers, or one of 2^32 or more; or so has a view")


def leaf_task(event, data):
    reader = LeafReader(data)
    reader.plan()
    return reader.leaves[event.leaf][3]


class Numbers:
    """The names of a leaf with their numbers, as `value_of` asks for them."""

    def __init__(self, numbers):
        self.values, self.lists = numbers, {}

    def known(self):
        return ", ".join(f"{name} = {value}" for name, value in self.values.items())


def view_fault(plan, event, variant):
    """The first view that isn't its parameter, or its local."""
    leaf = plan.leaves[event.leaf]
    form = Numbers(leaf.numbers)
    wanted = [(one, [extent_of(extent, leaf.numbers) for extent in one.extents]) for one in variant.params]
    local = [one for one in variant.declared if isinstance(one, Local)]
    wanted += [(one, [value_of(dim, form) for dim in one.dims]) for one in local]
    if len(wanted) != len(event.views):
        arrays = f"{counted(len(variant.params), 'parameter')} and {counted(len(local), 'local')}"
        return Told(f"{counted(len(event.views), 'view')}, and `{leaf.task}` has {arrays}")
    for number, ((one, extents), view) in enumerate(zip(wanted, event.views)):
        if (view.elem, view.extents) != (one.elem.text, extents):
            has, asks = (f"{elem} {''.join(f'[{n}]' for n in shape)}" for elem, shape in
                         ((view.elem, view.extents), (one.elem.text, extents)))
            return Told(f"view {number} is {has}, and {one.name.text} of `{leaf.task}` is {asks}")
    return None


MOST_LOOKED_AT = 1 << 20  # elements of views


def shared_fault(plan, event, variant):
    """The first view that is written and shares a byte with another one, or gives one to two of its elements."""
    written = [param.mode.text != "in" for param in variant.params]
    if sum(prod(view.extents) for view in event.views) > MOST_LOOKED_AT:
        return Told("two of its views share bytes, and one of them is written")
    bytes_of = [list(view_bytes(plan, view)) for view in event.views]
    for number, own in enumerate(bytes_of):
        is_written = number >= len(written) or written[number]
        if is_written and len(set(own)) < len(own):
            return Told(f"view {number} is written, and gives byte {first_again(own)} to two of its elements")
        for other, others in enumerate(bytes_of):
            shared = set(own) & set(others) if is_written and other != number else ()
            if shared:
                return Told(f"views {number} and {other} share byte {min(shared)}, and view {number} is written")
    return None


def view_bytes(plan, view):
    """The bytes of a view in its node."""
    for row, size in rows_of(view):
        begin = plan.buffers[view.slot.buffer].offset + row.at
        yield from range(begin, begin + size)


def first_again(numbers):
    seen = set()
    return next(number for number in numbers if number in seen or seen.add(number))


TELL = {"BadNode": bad_node, "BadBuffer": bad_buffer, "BadArray": bad_array, "BadLeaf": bad_leaf, "BadEvent": bad_event}
