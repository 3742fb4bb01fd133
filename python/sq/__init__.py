"""sq in this process: programs of memory hierarchies are checked, planned and run, without a process for each.

    import sq, pathlib
    here = pathlib.Path("examples/blocks")
    program, mapping, machine = here / "program.sq", here / "two.map", here / "two.mach"
    sq.run(program, mapping, machine, {"A": range(1, 11)})["B"].tolist()     # [2, 4, 6, .., 20]
    sq.plan(program, mapping, machine).levels[0].need                        # 80

A file is a text (`str` or `bytes`) or a path (`pathlib.Path` and its like). What sq refuses is raised as `Refused`, a
trap of the program as `Trapped`, want of memory as `MemoryError`. Calls keep nothing, and may run in several threads at
the same time; a thread whose stack was made small (`threading.stack_size`) needs 3 MiB of it for the deepest plan file.

It takes the library that `./sq library` makes: beside this module, in `lib/` of the repository, or where the environment
names it as SQ_LIBRARY.
"""
from ._arrays import Array, Arrays
from ._commands import check, compile, eval, exec, fmt, plan, run, span, tune
from ._library import Said, call
from ._refusals import Refused, Trapped
from ._reports import Buffer, Chain, Choice, Edge, Event, Hoist, Level, Node, Overlap, Report, Table

__all__ = [
    "Array",
    "Arrays",
    "Buffer",
    "Chain",
    "Choice",
    "Edge",
    "Event",
    "Hoist",
    "Level",
    "Node",
    "Overlap",
    "Refused",
    "Report",
    "Said",
    "Table",
    "Trapped",
    "call",
    "check",
    "compile",
    "eval",
    "exec",
    "fmt",
    "plan",
    "run",
    "span",
    "tune",
]
