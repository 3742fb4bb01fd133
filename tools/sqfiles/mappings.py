"""Mappings, machines and costs as trees. Names and numbers in them are tokens, so each knows its place."""
from dataclasses import dataclass, field
from typing import List, Optional

from sqfiles.tokens import ANY_NUMBER, Reader, Token


# ---- mappings


@dataclass
class Size:
    name: Token
    value: Token


@dataclass
class Setting:
    """A tunable with its alternatives, of which there are several for `sq tune` alone: a number or a list each."""

    name: Token
    alternatives: list

    @property
    def value(self):
        return self.alternatives[0]


@dataclass
class Service:
    """Which instance serves the calls of a task."""

    task: Token
    instance: Token


@dataclass
class Instance:
    name: Token
    task: Token
    variant: Token
    level: Token
    tunables: List[Setting] = field(default_factory=list)
    calls: List[Service] = field(default_factory=list)
    spreads: List[Token] = field(default_factory=list)  # the words `spread`
    spread: Optional[Token] = None  # cyclic or blocked

    def serves(self, task):
        return next((call.instance for call in self.calls if call.task.text == task), None)


@dataclass
class Mapping:
    version: int
    entry: Token
    sizes: List[Size]
    instances: List[Instance]

    def instance(self, name):
        return next((one for one in self.instances if one.name.text == name), None)

    def around(self, place):
        """The instance in which this place is."""
        return next((one for one in reversed(self.instances) if one.name.place <= place), None)


class MappingReader(Reader):
    alternatives = False

    def mapping(self):
        self.need("mapping")
        version = self.number(1, 2).value
        self.need(";")
        self.need("entry")
        entry = self.name()
        self.need("(")
        sizes = [] if self.sees(")") else self.list(self.size)
        self.need(")")
        self.need(";")
        instances = []
        while self.takes("instance"):
            instances.append(self.instance(version))
        self.end()
        return Mapping(version, entry, sizes, instances)

    def size(self):
        name = self.name()
        self.need("=")
        return Size(name, self.number())

    def instance(self, version):
        name = self.name()
        self.need("=")
        task = self.name()
        self.need("::")
        variant = self.need("inner", "leaf")
        self.need("@")
        found = Instance(name, task, variant, self.name())
        self.need("{")
        while not self.takes("}"):
            if self.takes("tunable"):
                found.tunables.append(self.setting())
            elif self.takes("call"):
                task = self.name()
                self.need("->")
                found.calls.append(Service(task, self.name()))
            elif version == 2 and self.takes("spread"):
                found.spreads.append(self.tokens[self.at - 1])
                self.need("=")
                found.spread = self.need("cyclic", "blocked")
            else:
                self.fail()
            self.need(";")
        return found

    def setting(self):
        name = self.name()
        self.need("=")
        found = Setting(name, [self.value_or_list()])
        while self.alternatives and self.takes("|"):
            found.alternatives.append(self.value_or_list())
        return found

    def value_or_list(self):
        if not self.takes("["):
            return self.value()
        values = [] if self.sees("]") else self.list(self.value)
        self.need("]")
        return values

    def value(self):
        self.wanted[ANY_NUMBER] = None
        sign = -1 if self.takes("-") else 1
        return sign * self.number().value


def read_mapping(data, alternatives=False):
    """With alternatives as `sq tune` reads it."""
    reader = MappingReader(data)
    reader.alternatives = alternatives
    return reader.mapping()


# ---- machines


@dataclass
class Level:
    name: Token
    capacity: Optional[Token] = None  # of version 1 alone, as are the children that each node above has
    children: Optional[Token] = None


@dataclass
class Node:
    name: Token
    capacity: Token
    below: List["Node"]


@dataclass
class Machine:
    version: int
    levels: List[Level]
    root: Optional[Node] = None  # of version 2 alone

    def nodes(self):
        """The nodes of version 2, in the order of the text."""
        stack = [self.root] if self.root else []
        while stack:
            node = stack.pop()
            yield node
            stack += reversed(node.below)

    def holders(self):
        """What has a capacity, in the order of the text: levels, or in version 2 nodes."""
        return self.levels if self.version == 1 else list(self.nodes())


class MachineReader(Reader):
    def machine(self):
        self.need("machine")
        version = self.number(1, 2).value
        self.need(";")
        machine = self.uneven() if version == 2 else self.even()
        self.end()
        return machine

    def even(self):
        levels = [self.level(None)]
        while self.takes("children"):
            children = self.number()
            self.need(";")
            levels.append(self.level(children))
        return Machine(1, levels)

    def level(self, children):
        self.need("level")
        name = self.name()
        self.need("{")
        found = Level(name, self.capacity(), children)
        self.need("}")
        return found

    def capacity(self):
        self.need("capacity")
        found = self.number()
        self.need(";")
        return found

    def uneven(self):
        self.need("levels")
        levels = [Level(name) for name in self.list(self.name)]
        self.need(";")
        return Machine(2, levels, self.tree())

    def tree(self):
        """The root with all below it: open nodes stand on a stack."""
        self.need("node")
        root, open_nodes = None, []
        while True:
            name = self.name()
            self.need("{")
            node = Node(name, self.capacity(), [])
            if open_nodes:
                open_nodes[-1].below.append(node)
            root = root or node
            open_nodes.append(node)
            while not self.takes("node"):
                self.need("}")
                open_nodes.pop()
                if not open_nodes:
                    return root


def read_machine(data):
    return MachineReader(data).machine()


# ---- costs


@dataclass
class Cost:
    level: Token
    row: Token
    byte: Token
    leaf: Token


class CostReader(Reader):
    def costs(self):
        self.need("cost")
        self.number(1)
        self.need(";")
        self.need("level")
        found = [self.cost()]
        while self.takes("level"):
            found.append(self.cost())
        self.end()
        return found

    def cost(self):
        name = self.name()
        self.need("{")
        found = Cost(name, *[self.weight(word) for word in ("row", "byte", "leaf")])
        self.need("}")
        return found

    def weight(self, word):
        self.need(word)
        found = self.number()
        self.need(";")
        return found


def read_costs(data):
    return CostReader(data).costs()
