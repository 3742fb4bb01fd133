"""Programs, mappings, machines and cost files as far as a picture asks for them, out of the trees of tools/sqfiles.

Whether they are right says sq, which was asked before.
"""
from dataclasses import dataclass, field
from typing import Dict, List, Optional

from sqfiles import canonical, mappings, programs
from sqfiles.tokens import Unread
from texts import BadText


def tree(read, text, what):
    try:
        return read(text.encode("utf-8"))
    except Unread as fault:
        place = f"line {fault.line} of the {what}" if fault.line else f"the {what}"
        raise BadText(f"{place}: {fault.code}") from None


def texts_of(tokens):
    return [token.text for token in tokens]


# ---- machines


@dataclass
class Memory:
    """A node of the machine's tree: its level and its index in it, and those below it."""

    name: Optional[str]  # of version 2 alone
    level: int
    index: int
    capacity: int
    below: List["Memory"] = field(default_factory=list)


@dataclass
class Machine:
    version: int
    names: List[str]  # of the levels
    nodes: List[List[Memory]]  # by level, from the left

    def add(self, name, level, capacity, above):
        node = Memory(name, level, len(self.nodes[level]), capacity)
        self.nodes[level].append(node)
        if above:
            above.below.append(node)
        return node


def read_machine(text):
    found = tree(mappings.read_machine, text, "machine")
    machine = Machine(found.version, texts_of(level.name for level in found.levels), [[] for _ in found.levels])
    if found.root:
        add_node(machine, found.root, 0, None)
        return machine
    for number, level in enumerate(found.levels):
        for above in machine.nodes[number - 1] if number else [None]:
            for _ in range(level.children.value if number else 1):
                machine.add(None, number, level.capacity.value, above)
    return machine


def add_node(machine, node, level, above):
    if level >= len(machine.names):
        raise BadText(f"line {node.name.line} of the machine: a node lies deeper than there are levels")
    made = machine.add(node.name.text, level, node.capacity.value, above)
    for below in node.below:
        add_node(machine, below, level + 1, made)


# ---- cost files


@dataclass
class Cost:
    """What a row, each byte of it and a leaf call weigh at a level."""

    level: str
    row: int
    byte: int
    leaf: int


def read_costs(text):
    """An entry for each level, from the root down."""
    found = tree(mappings.read_costs, text, "cost file")
    return [Cost(one.level.text, one.row.value, one.byte.value, one.leaf.value) for one in found]


# ---- mappings


@dataclass
class Instance:
    name: str
    task: str
    variant: str
    level: str
    calls: Dict[str, str] = field(default_factory=dict)  # the task called, and who serves it
    blocked: bool = False  # whether iterations go to the children in runs of neighbours, and not in turn


@dataclass
class Mapping:
    entry: str
    sizes: Dict[str, int]
    instances: Dict[str, Instance]


def read_mapping(text):
    found = tree(mappings.read_mapping, text, "mapping")
    sizes = {size.name.text: size.value.value for size in found.sizes}
    return Mapping(found.entry.text, sizes, {one.name.text: instance(one) for one in found.instances})


def instance(found):
    names = texts_of((found.name, found.task, found.variant, found.level))
    calls = {call.task.text: call.instance.text for call in found.calls}
    return Instance(*names, calls, found.spread is not None and found.spread.text == "blocked")


# ---- programs


@dataclass
class Param:
    mode: str  # in, out, inout, or local
    elem: str
    name: str
    extents: List[str]


@dataclass
class Map:
    kind: str  # mappar, mapseq or mapreduce
    round: Optional[int]  # the map in whose body it stands, by its number in the variant


@dataclass
class Call:
    task: str
    arrays: List[str]  # the array that each argument is, or is a block of
    maps: List[int]  # the maps round it, the outermost first


@dataclass
class Variant:
    task: str
    kind: str
    first: int  # its lines in the text
    last: int
    params: List[Param]
    locals: List[Param]
    blocks: Dict[str, str]  # block sets, and the array that each cuts
    maps: List[Map] = field(default_factory=list)  # of an inner variant, in the order of the text
    calls: List[Call] = field(default_factory=list)

    def array(self, name):
        """The parameter or local of this name; of two of one name, which sq refuses, the first."""
        return next((array for array in self.params + self.locals if array.name == name), None)

    def add(self, statements, maps):
        """The maps and calls of an inner variant, or of a map's body."""
        for one in statements:
            if isinstance(one, programs.Call):
                names = texts_of(arg.name for arg in one.args)
                self.calls.append(Call(one.task.text, [self.blocks.get(name, name) for name in names], maps))
                continue
            self.maps.append(Map(one.word.text, maps[-1] if maps else None))
            self.add(one.body, maps + [len(self.maps) - 1])


def read_program(text):
    """The variants by task and kind. Of bodies only locals, block sets, maps and calls are kept."""
    variants = {}
    for found in tree(programs.read_program, text, "program").variants:
        variants.setdefault((found.name.text, found.kind.text), variant(found))
    return variants


def variant(found):
    params = [Param(*texts_of((one.mode, one.elem, one.name)), texts_of(one.extents)) for one in found.params]
    locals_ = [
        Param("local", one.elem.text, one.name.text, list(map(canonical.text_of, one.dims)))
        for one in found.declared if isinstance(one, programs.Local)
    ]
    blocks = {one.name.text: one.array.text for one in found.declared if isinstance(one, programs.Blocks)}
    made = Variant(found.name.text, found.kind.text, found.name.line, found.end.line, params, locals_, blocks)
    if made.kind == "inner":
        made.add(found.body, [])
    return made
