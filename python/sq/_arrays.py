"""Arrays, from and to the texts of docs/FORMATS.md, "Arrays"."""
from array import array
from operator import index
from typing import Any, Dict, Iterable, Iterator, List, Mapping, NamedTuple, Sequence, Tuple, Union

# Each type of elements as a code of `array`, and as NumPy names it.
CODES = {"byte": "B", "int": "i", "long": "q"}
NUMPY = {"byte": "|u1", "int": "<i4", "long": "<i8"}
BY_SIZE = {1: "byte", 4: "int", 8: "long"}
NESTS = (list, tuple, range)


class Wanted(NamedTuple):
    """An array that a program reads: its name, and the type of its elements."""

    name: str
    element: str


class Array:
    """An array: its name, the type of its elements, its extents, and its values, the last dimension fastest."""

    __slots__ = ("name", "element", "extents", "values")

    def __init__(self, name: str, element: str, extents: Sequence[int], values: Iterable[int]) -> None:
        self.name, self.element, self.extents = name, element, tuple(extents)
        self.values = values if isinstance(values, array) else array(CODES[element], values)

    def __repr__(self) -> str:
        return f"Array({self.name!r}, {self.element!r}, {self.extents}, {self.values.tolist()})"

    def __eq__(self, other: object) -> bool:
        if not isinstance(other, Array):
            return NotImplemented
        return [getattr(self, it) for it in self.__slots__] == [getattr(other, it) for it in self.__slots__]

    def view(self) -> memoryview:
        """The values as a buffer of these extents, not copied."""
        return memoryview(self.values).cast("B").cast(CODES[self.element], list(self.extents))

    def tolist(self) -> Any:
        """The values as lists within lists."""
        return self.view().tolist()

    @property
    def __array_interface__(self) -> Dict[str, Any]:
        return {"version": 3, "shape": self.extents, "typestr": NUMPY[self.element], "data": self.values}


class Arrays(Mapping[str, Array]):
    """Arrays by their names, in order; `text` is what sq wrote, and may be handed to it again as data."""

    def __init__(self, text: str) -> None:
        self.text = text
        self._held = {it.name: it for it in arrays_in(text)}

    def __getitem__(self, name: str) -> Array:
        return self._held[name]

    def __iter__(self) -> Iterator[str]:
        return iter(self._held)

    def __len__(self) -> int:
        return len(self._held)

    def __repr__(self) -> str:
        return f"Arrays({self.text!r})"


def arrays_in(text: str) -> Iterator[Array]:
    for part in f"\n{text}".split("\narray ")[1:]:
        head, _, values = part.partition("\n")
        name, element, extents = head.split(" ")
        yield Array(name, element, extents_in(extents), map(int, values.split()))


def extents_in(word: str) -> List[int]:
    return [int(it) for it in word[1:-1].split("][")]


# ---- what is given

Given = Union[Array, Sequence[Any], Any]


def is_buffer(it: Any) -> bool:
    try:
        memoryview(it)
    except TypeError:
        return False
    return True


def flat(it: Any) -> Tuple[List[int], List[int]]:
    """The extents of lists within lists, and their values."""
    if not isinstance(it, NESTS):
        return [], [index(it)]
    if not any(isinstance(part, NESTS) for part in it):
        return [len(it)], list(map(index, it))
    parts = [flat(part) for part in it]
    if any(extents != parts[0][0] for extents, _ in parts):
        raise ValueError("lists within lists have one length each")
    return [len(parts), *parts[0][0]], [value for _, values in parts for value in values]


def parts_of(given: Given) -> Tuple[str, Sequence[int], List[int]]:
    """The type of what is given, where it tells one, its extents, and its values, the last dimension fastest."""
    if isinstance(given, Array):
        return given.element, given.extents, given.values.tolist()
    if is_buffer(given):
        view = memoryview(given)
        return BY_SIZE.get(view.itemsize, ""), view.shape or (1,), flat(view.tolist())[1]
    extents, values = flat(list(given))
    return "", extents, values


def text_of(given: Given, name: str, element: str) -> str:
    """The text of an array: of elements of this type, or where none is named of its own."""
    own, extents, values = parts_of(given)
    word = "".join(f"[{extent}]" for extent in extents)
    return f"array {name} {element or own or 'int'} {word}\n{' '.join(map(str, values))}\n"


def data_text(given: Mapping[str, Given], wanted: Sequence[Wanted]) -> str:
    """The text of arrays: those that are wanted in their order, then the others."""
    elements = {it.name: it.element for it in wanted}
    names = [*(name for name in elements if name in given), *(name for name in given if name not in elements)]
    return "".join(text_of(given[name], name, elements.get(name, "")) for name in names)
