"""A line of sq, and the files of its command as trees."""
from dataclasses import dataclass, field
from functools import cached_property
from typing import List, Optional

from sqfiles.mappings import read_costs, read_machine, read_mapping
from sqfiles.programs import read_program
from sqfiles.tokens import Unread

# The file of each phase, by its place behind the command's word.
FILES = {
    **dict.fromkeys(("program", "types", "resolve", "race", "trap"), 0),
    "mapping": 1,
    **dict.fromkeys(("machine", "capacity"), 2),
    **dict.fromkeys(("cost", "data"), 3),
}
# Those of exec, which has a plan file in place of the first three.
EXEC_FILES = {"plan": 0, "trap": 0, "data": 1}
ORDER_LIST = "order=list:"


@dataclass
class Fault:
    phase: str
    code: str
    place: Optional[tuple] = None
    args: List[str] = field(default_factory=list)


def place_of(word):
    """The place that a word such as 4:12 names; None where it is none."""
    line, colon, column = word.partition(":")
    return (int(line), int(column)) if colon and line.isdigit() and column.isdigit() else None


def fault_of(line):
    """The fault that a line of sq tells: a refusal, or a trap, whose phase is `trap`; None where it is another line."""
    words = line.split()
    if words[:1] == ["refused"] and len(words) >= 3:
        place = place_of(words[3]) if len(words) > 3 else None
        return Fault(words[1], words[2], place, words[4 if place else 3 :])
    if words[:1] == ["trapped"] and len(words) == 5 and place_of(words[2]):
        return Fault("trap", words[1], place_of(words[2]), words[4:])
    return None


class Files:
    """The files of a command, which are read when they are asked for; None where one isn't there or doesn't read."""

    def __init__(self, words):
        self.command, self.words = words[0] if words else "", words

    def name(self, phase):
        if phase == "order":
            return next((word[len(ORDER_LIST) :] for word in self.words if word.startswith(ORDER_LIST)), None)
        place = (EXEC_FILES if self.command == "exec" else FILES).get(phase)
        names = self.words[1:]
        return names[place] if place is not None and place < len(names) else None

    def data(self, phase):
        try:
            with open(self.name(phase) or "", "rb") as file:
                return file.read()
        except OSError:
            return None

    def tree(self, phase, read):
        data = None if self.command == "exec" else self.data(phase)
        try:
            return None if data is None else read(data)
        except (Unread, RecursionError):
            return None

    @cached_property
    def program(self):
        return self.tree("program", read_program)

    @cached_property
    def mapping(self):
        return self.tree("mapping", lambda data: read_mapping(data, self.command == "tune"))

    @cached_property
    def machine(self):
        return self.tree("machine", read_machine)

    @cached_property
    def costs(self):
        return self.tree("cost", read_costs)
