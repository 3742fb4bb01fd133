"""The commands of sq as functions."""
import os
import re
from pathlib import Path
from typing import Dict, List, Mapping, Sequence, Tuple, Union

from ._arrays import Arrays, Given, Wanted, data_text
from ._library import Bytes, Said, bytes_of, call
from ._refusals import raise_end
from ._reports import Chain, Report, Table, chain_of, report_of, table_of

Text = Union[Bytes, os.PathLike]
Data = Union[Text, Mapping[str, Given]]
Order = Union[str, Sequence[int]]

COMMENT = re.compile(r"//[^\n]*|/\*.*?\*/", re.S)
ENTRY = re.compile(r"\s*mapping\s+\d+\s*;\s*entry\s+(\w+)\s*\(")
PARAMETER = re.compile(r"(in|out|inout) (byte|int|long) (\w+)")
FILED = re.compile(r"\barray\s+(in|out|inout)\s+(byte|int|long)\s+(\w+)\s*\[")


def bytes_in(text: Text) -> bytes:
    return Path(text).read_bytes() if isinstance(text, os.PathLike) else bytes_of(text)


def done(words: List[str], files: Mapping[str, bytes], room: int = 0) -> bytes:
    """What the words write, where they are done."""
    said: Said = call(words, files, room)
    if said.status != 0:
        raise_end(said)
    return said.out


def three(program: Text, mapping: Text, machine: Text) -> Dict[str, bytes]:
    return {"program": bytes_in(program), "mapping": bytes_in(mapping), "machine": bytes_in(machine)}


# ---- the data, and the order


def bare(text: bytes) -> str:
    """A text without its comments."""
    return COMMENT.sub(" ", text.decode("utf-8", "replace"))


def read_of(found: "List[Tuple[str, ...]]") -> List[Wanted]:
    return [Wanted(name, element) for mode, element, name in found if mode != "out"]


def wanted_of_program(program: bytes, mapping: bytes) -> List[Wanted]:
    """The arrays that the entry reads; none where the mapping is one that sq refuses before it reads data."""
    text = bare(mapping)
    entry = ENTRY.match(text)
    variant = entry and re.search(rf"\binstance\s+{entry[1]}\s*=\s*(\w+)\s*::\s*(\w+)", text)
    if not variant:
        return []
    formatted = done(["fmt", "program"], {"program": program}).decode()
    head = re.search(rf"^void task {variant[1]}::{variant[2]}\((.*)\) {{$", formatted, re.M)
    return read_of(PARAMETER.findall(head[1])) if head else []


def data_bytes(data: Data, wanted: "List[Wanted]") -> bytes:
    return data_text(data, wanted).encode() if isinstance(data, Mapping) else bytes_in(data)


def ordered(order: Order) -> Tuple[str, Dict[str, bytes]]:
    """The word of an order, and its file where it is a list."""
    if isinstance(order, str):
        return f"order={order}", {}
    return "order=list:order", {"order": " ".join(map(str, order)).encode()}


def arrays(words: List[str], files: Dict[str, bytes]) -> Arrays:
    return Arrays(done(words, files, room=2 * len(files["data"])).decode())


# ---- the commands


def check(program: Text) -> None:
    """Whether a program has no fault of text, names, kinds and parameters: raises its first one."""
    done(["check", "program"], {"program": bytes_in(program)})


def fmt(program: Text) -> str:
    """The canonical text of a program."""
    return done(["fmt", "program"], {"program": bytes_in(program)}).decode()


def plan(program: Text, mapping: Text, machine: Text) -> Report:
    """What the plan of a program needs of the memories, where buffers lie, and how much edges carry."""
    return report_of(done(["plan", "program", "mapping", "machine"], three(program, mapping, machine)))


def eval(program: Text, mapping: Text, machine: Text, data: Data) -> Arrays:
    """What a program means for the data, on one flat memory: the arrays that it writes.

    `data` is a text or a path, or arrays by their names, in any order: lists (of lists), or anything with the buffer
    protocol, as NumPy's arrays."""
    files = three(program, mapping, machine)
    wanted = wanted_of_program(files["program"], files["mapping"]) if isinstance(data, Mapping) else []
    files["data"] = data_bytes(data, wanted)
    return arrays(["eval", "program", "mapping", "machine", "data"], files)


def run(program: Text, mapping: Text, machine: Text, data: Data, order: Order = "last") -> Arrays:
    """Runs a program on the memories of a machine, and gives the arrays that it writes. `data` is as in `eval`.

    `order` says which of the events that are ready is next: "first", "last", "seed:N", or a list of numbers. The result
    is the same in each."""
    files = three(program, mapping, machine)
    wanted = wanted_of_program(files["program"], files["mapping"]) if isinstance(data, Mapping) else []
    word, more = ordered(order)
    files.update(more, data=data_bytes(data, wanted))
    return arrays(["run", "program", "mapping", "machine", "data", word], files)


def compile(program: Text, mapping: Text, machine: Text) -> str:
    """The plan of a program, as a plan file."""
    return done(["compile", "program", "mapping", "machine"], three(program, mapping, machine)).decode()


def exec(plan: Text, data: Data, order: Order = "last") -> Arrays:
    """Checks a plan file, whoever wrote it, and runs it: the arrays that it writes. `data` and `order` are as in `run`."""
    filed = bytes_in(plan)
    wanted = read_of(FILED.findall(bare(filed))) if isinstance(data, Mapping) else []
    word, more = ordered(order)
    files = {"plan": filed, "data": data_bytes(data, wanted), **more}
    return arrays(["exec", "plan", "data", word], files)


def tune(program: Text, mapping: Text, machine: Text) -> Table:
    """What comes of each choice of a mapping whose tunables list alternatives."""
    return table_of(done(["tune", "program", "mapping", "machine"], three(program, mapping, machine)))


def span(program: Text, mapping: Text, machine: Text, cost: Text) -> Chain:
    """A heaviest chain of the events of a program's plan, by what the costs say that they weigh."""
    files = {**three(program, mapping, machine), "cost": bytes_in(cost)}
    return chain_of(done(["span", "program", "mapping", "machine", "cost"], files))
