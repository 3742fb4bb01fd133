"""What a race, a memory that is too small, and data that don't fit are made of: places and values."""
import os
from math import prod

from plans import read_plan
from sqfiles.programs import Call, Map

from saying import forms
from saying.names import Told, counted, maps, served, there
from saying.snippets import span_of

# ---- races

DIMENSIONS = {1: ["element"], 2: ["row", "column"], 3: ["plane", "row", "column"]}
MODES = {"in": "reads", "out": "writes", "inout": "reads and writes"}


def block_of(text):
    """The ranges of a block such as [0..4][8..16]."""
    found = []
    for part in text.strip("[]").split("]["):
        begin, _, end = part.partition("..")
        found.append((int(begin), int(end)))
    return found


def block_text(block):
    """As people count: from the first one to the last one."""
    parts = []
    for name, (begin, end) in zip(DIMENSIONS[len(block)], block):
        parts.append(f"{name} {begin}" if end - begin == 1 else f"{name}s {begin} to {end - 1}")
    return ", ".join(parts)


def uses(body, variant, array):
    """The arguments on an array below a map, with their calls and numbers, and what is reduced into it."""
    for one in body:
        if isinstance(one, Call):
            for number, arg in enumerate(one.args):
                blocks = variant.blocks(arg.name.text)
                if (blocks.array.text if blocks else arg.name.text) == array:
                    yield arg.name, one, number
        elif isinstance(one, Map):
            if one.array and one.array.text == array:
                yield one.array, None, None
            yield from uses(one.body, variant, array)


def race(fault, files):
    variant = there(there(files.program).around(fault.place))
    found = there(next((one for one in maps(variant.body) if one.word.place == fault.place), None))
    array, first, first_block, second, second_block = fault.args
    spans = []
    for token, call, number in uses(found.body, variant, array):
        mode = served(fault, files, call.task.text).params[number].mode.text if call else "inout"
        spans.append(span_of(token, f"{MODES[mode]} {'blocks of ' if variant.blocks(token.text) else ''}`{array}`"))
    blocks = block_of(first_block), block_of(second_block)
    shared = [(max(a, c), min(b, d)) for (a, b), (c, d) in zip(*blocks)]
    variables = forms.variables_of(found, (int(first), int(second)), files) or ("", "")
    numbered = [f"{number}{f' ({told})' if told else ''}" for number, told in zip((first, second), variables)]
    line, column = fault.place
    note = f"iterations {' and '.join(numbered)} of the {found.word.text} at {line}:{column} both use "
    note += f"{block_text(shared)} of {array}"
    if blocks[0] != blocks[1]:
        has = [f"{number} has {block_text(block)}" for number, block in zip((first, second), blocks)]
        note += f" ({', and '.join(has)})"
    note += ", and one of them writes"
    return Told(f"iterations {first} and {second} clash", spans, [note])


# ---- capacities


def with_capacity(data, machine, name, capacity):
    """The machine's text with another capacity of a level or, in version 2, of a node."""
    token = there(next((one.capacity for one in machine.holders() if one.name.text == name), None))
    return data[: token.at] + str(capacity).encode() + data[token.at + len(token.text) :]


def stack_of(buffers, need):
    """The buffers that stand on one another up to this byte, the uppermost first; none where they leave gaps."""
    found, top = [], need
    while top > 0:
        below = [number for number, buffer in enumerate(buffers) if buffer[1] + buffer[2] == top and buffer[2] > 0]
        earlier = [number for number in below if not found or number < found[-1]]
        if not below:
            return []
        found.append(earlier[-1] if earlier else below[-1])
        top = buffers[found[-1]][1]
    return [buffers[number] for number in found]


def level_of(machine, name):
    """The level of what a Capacity names."""
    if machine.version == 1:
        return name
    depth, row = 0, [machine.root]
    while row and all(node.name.text != name for node in row):
        depth, row = depth + 1, [below for node in row for below in node.below]
    return machine.levels[depth].name.text


def buffers_of(report, level):
    """The buffers of a level in a report: (level, offset, size, instance, array)."""
    lines = [line.split() for line in report.splitlines()]
    return [(words[1], int(words[2]), int(words[3]), *words[4:]) for words in lines if words[:2] == ["buffer", level]]


def capacity(fault, files, plan):
    """`plan` gives the report for a machine that has what it needs, or None."""
    machine = there(files.machine)
    name, need, has = fault.args[0], int(fault.args[1]), int(fault.args[2])
    holder = there(next((one for one in machine.holders() if one.name.text == name), None))
    told = Told("", [span_of(holder.capacity, f"{need} bytes are needed")])
    report = plan(files, fault)
    stack = stack_of(buffers_of(report, level_of(machine, name)), need) if report else []
    largest = sorted(reversed(stack), key=lambda buffer: -buffer[2])
    sum_ = ", ".join(f"{instance} {array} {size}" for _, _, size, instance, array in largest)
    told.notes.append(lack(name, need, has, f"{sum_} = " if stack else ""))
    return told


def lack(name, need, has, sum_=""):
    """That a memory is too small, in words."""
    return f"{name} lacks {need - has} byte{'s' if need - has > 1 else ''}: {sum_}{need} of {has}"


# ---- data


def wanted(fault, files):
    """The array that is wanted, as it has to stand in the data, and how many values it has."""
    mapping, program = there(files.mapping), there(files.program)
    entry = there(mapping.instance(mapping.entry.text))
    variant = there(program.variant(entry.task.text, entry.variant.text))
    param = there(next((one for one in variant.params if one.name.text == fault.args[0]), None))
    sizes = {size.name.text: size.value.value for size in mapping.sizes}
    extents = [extent.value if extent.kind == "number" else sizes[extent.text] for extent in param.extents]
    return f"{param.name.text} {param.elem.text} {''.join(f'[{extent}]' for extent in extents)}", prod(extents)


RANGES = {"byte": "0 to 255", "int": "-2147483648 to 2147483647", "long": "-2^63 to 2^63 - 1"}


def data(fault, files):
    if not fault.args:
        return Told("the entry has no array that is read; the data are empty")
    head, count = wanted(fault, files)
    name, elem, extents = head.split()
    labels = {
        "Name": f"`{name}` has to stand here",
        "Shape": f"`{elem}` and then `{extents}` have to stand behind the name",
        "Syntax": "no number of digits, with `-` or without",
        "Range": f"values of {elem} are {RANGES[elem]}",
        "Extra": f"{name} has its {count} values" if count != 1 else f"{name} has its value",
    }
    told = Told(labels.get(fault.code, ""), [], [f"wanted: array {head}"])
    if fault.code in ("Short", "Syntax"):
        found = values_before(there(files.data("data")), fault.place, name)
        told.notes += [f"{name} has {found} of {count} values"] if fault.code == "Short" or found >= 0 else []
    return told


def order(fault):
    labels = {"Syntax": "no number of digits alone", "Range": "at most 4294967295"}
    return Told(labels[fault.code])


MOST_EVENTS = 65536


def limit_events(fault, files, plan):
    """Of a plan that would be written, by its report; of one that is read, by its lines."""
    if files.command == "exec":
        count = len(read_plan(there(files.data("plan"))).events)
        return Told("", [], [f"the file has {count} events, and {MOST_EVENTS} may be"])
    words = [line.split() for line in there(plan(files, fault)).splitlines()]
    leaves = next(line[1] for line in words if line[0] == "leaves")
    edges = [f"{down} bytes down from {upper} to {lower}, and {up} up" for _, upper, lower, _, down, _, up in
             (line for line in words if line[0] == "edge")]
    carried = f", and carries {'; '.join(edges)}" if edges else ""
    many = counted(int(leaves), "leaf call")
    return Told("", [], [f"more than {MOST_EVENTS} events: the plan has {many}{carried}, row by row"])


MOST_BYTES = {"data": 1 << 28, "order": 1 << 28, "plan": 1 << 24}


def limit_file(fault, files):
    most, name = MOST_BYTES.get(fault.phase, 1 << 20), files.name(fault.phase)
    if name is None:
        return Told("", [], [f"the text of the plan has more than {most} bytes"])
    return Told("", [], [f"{name} has {os.path.getsize(name)} bytes, and {most} may be"])


def values_before(content, place, name):
    """How many words stand between the head of an array and this place."""
    lines = content.split(b"\n")[: place[0]]
    lines[-1] = lines[-1][: place[1] - 1]
    words = b"\n".join(lines).split()
    heads = [at for at, word in enumerate(words) if word == b"array" and words[at + 1 : at + 2] == [name.encode()]]
    return max(len(words) - heads[-1] - 4, 0) if heads else 0


