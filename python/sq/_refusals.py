"""What sq refuses, and traps, as exceptions."""
import re
from typing import NoReturn, Optional, Tuple

from ._library import Said

Place = Tuple[int, int]


class Refused(Exception):
    """sq refused a file: in this phase, with this code, at this line and column where there is a place, with these
    arguments. docs/FAULTS.md explains the codes."""

    def __init__(self, line: str) -> None:
        super().__init__(line)
        _, self.phase, self.code, *rest = line.split(" ")
        self.place: Optional[Place] = place_of(rest[0]) if rest else None
        self.arguments: Tuple[str, ...] = tuple(rest[1:] if self.place else rest)


class Trapped(Exception):
    """The program trapped: the kind, the place, and the iterations that led there, the outermost first."""

    def __init__(self, line: str) -> None:
        super().__init__(line)
        _, self.kind, place, _, path = line.split(" ")
        self.place: Optional[Place] = place_of(place)
        self.path: Tuple[int, ...] = tuple(int(turn) for turn in path.split("/") if turn != "-")


def place_of(word: str) -> Optional[Place]:
    found = re.fullmatch(r"(\d+):(\d+)", word)
    return (int(found[1]), int(found[2])) if found else None


def last_line(err: bytes) -> str:
    return err.decode("utf-8", "replace").rstrip("\n").rpartition("\n")[2]


def raise_end(said: Said) -> NoReturn:
    """Raises what a call that isn't done ended with."""
    if said.status == 6:
        raise MemoryError("sq")
    line = last_line(said.err)
    if said.status == 1:
        raise Refused(line)
    if said.status == 2:
        raise Trapped(line)
    raise ValueError(line)
