"""What sq reports, read from its lines."""
from typing import Iterable, List, NamedTuple, Optional, Tuple, Union

from ._refusals import Place, Refused, place_of


class Node(NamedTuple):
    """A node that the machine names: its bytes, and how many of them are needed."""

    name: str
    capacity: int
    need: int


class Level(NamedTuple):
    """A level: how many nodes it has, the least capacity and the greatest need of them, and the end of its last buffer.
    `each` has the nodes, where the machine names them."""

    name: str
    nodes: int
    capacity: int
    need: int
    used: int
    each: Tuple[Node, ...] = ()


class Buffer(NamedTuple):
    """A buffer: where it begins at each node of its level, its bytes, and whose array it holds."""

    level: str
    offset: int
    size: int
    instance: str
    array: str


class Hoist(NamedTuple):
    """An argument whose transfers leave the loop at this place: the calling instance, and the parameter."""

    place: Place
    instance: str
    parameter: str


class Overlap(NamedTuple):
    """A loop whose transfers overlap with the work of the iterations beside them."""

    place: Place
    instance: str


class Edge(NamedTuple):
    """Two levels, and the bytes that are carried between them in a run that doesn't trap."""

    upper: str
    lower: str
    down: int
    up: int


class Report(NamedTuple):
    """What a plan needs of the memories, where its buffers lie, and how much its edges carry."""

    levels: Tuple[Level, ...]
    buffers: Tuple[Buffer, ...]
    hoists: Tuple[Hoist, ...]
    overlaps: Tuple[Overlap, ...]
    edges: Tuple[Edge, ...]
    leaves: int

    @property
    def traffic(self) -> int:
        """The bytes that all edges carry."""
        return sum(edge.down + edge.up for edge in self.edges)


class Choice(NamedTuple):
    """A choice of a mapping with alternatives: a number or a list for each `INSTANCE.TUNABLE`, and the bytes that its
    plan carries, or the fault for which it is refused."""

    settings: "dict[str, Union[int, Tuple[int, ...]]]"
    traffic: Optional[int]
    refused: Optional[Refused]


class Table(NamedTuple):
    """All choices, and the number of the first that carries the fewest bytes, if one is accepted."""

    choices: Tuple[Choice, ...]
    best: Optional[int]


class Event(NamedTuple):
    """An event of a chain: what it weighs, and its line as in a trace."""

    weight: int
    line: str


class Chain(NamedTuple):
    """A heaviest chain: what it weighs, its events, and how many events the plan has."""

    weight: int
    events: Tuple[Event, ...]
    planned: int


def lines_of(out: bytes) -> "List[str]":
    return out.decode().splitlines()


def placed(word: str) -> Place:
    place = place_of(word)
    assert place is not None
    return place


def report_of(out: bytes) -> Report:
    levels, buffers, hoists, overlaps, edges, leaves = [], [], [], [], [], 0
    for kind, *its in map(str.split, lines_of(out)):
        if kind == "level":
            levels.append(Level(its[0], *map(int, its[2::2])))
        elif kind == "node":
            node = Node(its[0], *map(int, its[2::2]))
            levels[-1] = levels[-1]._replace(each=(*levels[-1].each, node))
        elif kind == "buffer":
            buffers.append(Buffer(its[0], int(its[1]), int(its[2]), its[3], its[4]))
        elif kind == "hoist":
            hoists.append(Hoist(placed(its[0]), its[1], its[2]))
        elif kind == "overlap":
            overlaps.append(Overlap(placed(its[0]), its[1]))
        elif kind == "edge":
            edges.append(Edge(its[0], its[1], int(its[3]), int(its[5])))
        elif kind == "leaves":
            leaves = int(its[0])
    return Report(tuple(levels), tuple(buffers), tuple(hoists), tuple(overlaps), tuple(edges), leaves)


def value_of(text: str) -> "Union[int, Tuple[int, ...]]":
    if text.startswith("["):
        return tuple(int(it) for it in text[1:-1].split(",") if it)
    return int(text)


def choice_of(words: Iterable[str]) -> Choice:
    its = list(words)
    ends = next(i for i, word in enumerate(its) if word in ("traffic", "refused"))
    settings = {name: value_of(value) for name, _, value in (word.partition("=") for word in its[:ends])}
    if its[ends] == "traffic":
        return Choice(settings, int(its[ends + 1]), None)
    return Choice(settings, None, Refused(" ".join(its[ends:])))


def table_of(out: bytes) -> Table:
    *choices, (_, best, *_) = [line.split(" ") for line in lines_of(out)]
    return Table(tuple(choice_of(words[2:]) for words in choices), None if best == "none" else int(best))


def chain_of(out: bytes) -> Chain:
    (_, weight, _, _, _, planned), *events = [line.split(" ") for line in lines_of(out)]
    return Chain(int(weight), tuple(Event(int(words[0]), " ".join(words[1:])) for words in events), int(planned))
