"""The plan that a program has where its memories have the bytes that they lack."""
import os
import tempfile

from sqfiles.mappings import read_machine

from saying import values
from saying.faults import fault_of

TRIES = 64  # memories that lack


def plan_with_room(files, fault, plan):
    """The report of the plan on a machine that has just what is needed where it lacks; None where none is found.

    `plan` takes the names of a program, a mapping and a machine, and gives the report, or None, and the line of a
    refusal."""
    data = files.data("machine")
    with tempfile.TemporaryDirectory() as folder:
        name = os.path.join(folder, "room.mach")
        for _ in range(TRIES):
            if not fault or fault.code != "Capacity":
                return None
            data = values.with_capacity(data, read_machine(data), fault.args[0], int(fault.args[1]))
            with open(name, "wb") as file:
                file.write(data)
            report, line = plan(files.name("program"), files.name("mapping"), name)
            if report is not None:
                return report
            fault = fault_of(line)
    return None
