"""The picture as text, for a terminal of 80 columns: the tree of memories, and each memory as a bar of its buffers."""
from saying.values import lack
from stays import ENTRY, layouts_of
from tree import placed_tree

COLUMNS = 80
NAMES = 9  # columns for the names of levels and nodes
BAR = COLUMNS - NAMES - 2
MOST = 6  # memories of a level, and calls of one memory, that are drawn
OVER = "!"  # what lies behind the end of a memory


# ---- the tree


def cell_text(cell, needs):
    """What a node holds, in version 2 of machines with its name and its own need."""
    if cell.more:
        return f"and {cell.more} more"
    node = cell.nodes[0]
    if node.name:
        return f"{node.name} {node.capacity}, needs {needs[node.name]}"
    return f"{len(cell.nodes)} x {node.capacity}" if len(cell.nodes) > 1 else str(node.capacity)


def draw(pieces):
    line = ""
    for column, text in sorted(pieces):
        line = line.ljust(column) + text
    return line


def strokes(middle, below):
    """Between a node and those below it: `/` to the left, `|` straight down, `\\` to the right."""
    for other in below:
        step = (other - middle) // 2
        yield middle + step, "/" if other < middle else "\\" if other > middle else "|"


def tree(report, machine):
    needs = {name: need for level in report.levels for name, _, need in level.own}
    # Behind the tree stands what the level needs and how far it is used.
    told = [f"need {level.need}, used {level.used}" for level in report.levels]
    room = COLUMNS - NAMES - 2 - max(map(len, told))
    rows, _ = placed_tree(machine, lambda cell: len(cell_text(cell, needs)), (8, 5, 2), room)
    lines = []
    for level, row, behind in zip(report.levels, rows, told):
        texts = [(middle - len(cell_text(cell, needs)) // 2, cell_text(cell, needs)) for cell, middle, _ in row]
        lines.append(level.name.ljust(NAMES) + draw(texts).ljust(room) + "  " + behind)
        edges = draw([stroke for _, middle, below in row for stroke in strokes(middle, below)])
        if edges:
            lines.append(" " * NAMES + edges)
    return lines


# ---- bars


def scaled(at, capacity):
    return at * BAR // capacity if capacity else 0


def cut(pieces, end):
    """The pieces of a track, of which one that passes the memory's end is two: the text stands in the longer one."""
    for begin, stop, texts, stroke in pieces:
        if stop <= end:
            yield begin, stop, texts, stroke
        elif begin >= end:
            yield begin, stop, texts, OVER
        else:
            front, behind = (texts, []) if end - begin >= stop - end else ([], texts)
            yield begin, end, front, stroke
            yield end, stop, behind, OVER


def bar_line(pieces, capacity, end):
    """One track, of (from, to, texts, stroke) in bytes: of the texts the first that fits is shown. `end` is where the
    memory ends; what lies behind it doesn't fit. Behind the line stands whether each piece has its text."""
    last, mark, told = max([end, *(stop for _, stop, *_ in pieces)]), scaled(end, capacity), True
    line = ["."] * mark + [" "] * (scaled(last, capacity) + 1 - mark)
    for begin, stop, texts, stroke in cut(pieces, end):
        left, right = scaled(begin, capacity), scaled(stop, capacity)
        inside = max(right - left - 1, 0)
        shown = next((text for text in texts if len(text) <= inside), "")
        told &= shown != "" or not texts
        line[left:right] = list(("|" + shown.center(inside, stroke))[: right - left])
        line[right] = "|"
    line[0] = line[mark] = line[-1] = "|"
    if last > end and OVER not in line[mark:]:
        line[-1] = OVER
    return "".join(line), told


def ruler(ats, capacity):
    """The numbers of bytes below a bar, each from its column on where there is room for it; the last one ends with the
    bar."""
    *others, last = sorted(ats)
    end, line = scaled(last, capacity) + 1, ""
    for at in others:
        column = scaled(at, capacity)
        if not line or (len(line) < column and column + len(str(at)) < end - len(str(last))):
            line = line.ljust(column) + str(at)
    return line + str(last).rjust(end - len(line))


def labels(buffer):
    name, size = buffer.array, buffer.size
    return [f" {buffer.instance} {name} {size} ", f" {name} {size} ", f"{name} {size}", name]


def capacity_mark(capacity, widest):
    """A line below a bar that points to where its memory ends."""
    column, told = scaled(capacity, widest), f"capacity {capacity}"
    return f"{told} ^".rjust(column + 1) if len(told) < column else f"{' ' * column}^ {told}"


def below_bar(level, memory, ats, widest):
    """What stands below a bar: its bytes, and of a memory that lacks bytes its capacity and how many these are."""
    if not level.lacks(memory):
        return [ruler({0, memory.capacity} | ats, widest)]
    told = lack(memory.name or level.name, level.need_of(memory), memory.capacity)
    return [ruler({0, level.reach(memory)} | ats, widest), capacity_mark(memory.capacity, widest), told]


def level_bars(report, machine, layouts, level):
    """The bars of a level: for all of its nodes, or in version 2 for each, up to a few."""
    nodes = machine.nodes[level] if machine.version == 2 else machine.nodes[level][:1]
    named = report.levels[level]
    widest = max(map(named.reach, nodes))
    lines, listed = [], []
    for node in nodes[:MOST]:
        name = node.name or named.name
        fitting = [layout for layout in layouts if layout.end <= named.reach(node)]
        for layout in fitting[:MOST] or [None]:
            pieces = [(b.offset, b.end, labels(b), "-") for b in layout.buffers] if layout else []
            line, told = bar_line(pieces, widest, node.capacity)
            listed += [] if told else [b for b in layout.buffers if b not in listed]
            lines.append(name.ljust(NAMES) + line)
            name = ""
        if len(fitting) > MOST:
            lines.append(" " * NAMES + f" and {len(fitting) - MOST} more, of other calls")
        ats = {b.offset for layout in fitting[:MOST] for b in layout.buffers}
        lines += [" " * NAMES + line for line in below_bar(named, node, ats, widest)]
    if len(nodes) > MOST:
        lines.append(" " * NAMES + f" and {len(nodes) - MOST} more memories")
    lines += [f"{' ' * NAMES} byte {b.offset}: {b.instance} {b.array}, {b.size} bytes" for b in listed]
    return lines


# ---- an event of a trace


def node_name(report, machine, node):
    memory, level = machine.nodes[node[0]][node[1]], report.levels[node[0]]
    return memory.name or level.node_name(node[1])


def event_bars(report, machine, tracker, number):
    """For each node in use what is touched both at this event or before and at it or behind."""
    stays = {}
    for stay in tracker.stays:
        if stay.first <= number <= stay.last:
            stays.setdefault(stay.node, []).append(stay)
    event = tracker.trace.events[number]
    lines = [f"event {number + 1} of {len(tracker.trace.events)}: {tracker.trace.lines[number]}", ""]
    for node in sorted(stays):
        capacity = machine.nodes[node[0]][node[1]].capacity
        widest = max(memory.capacity for memory in machine.nodes[node[0]])
        pieces = []
        for stay in stays[node]:
            texts = stay_labels(tracker, stay)
            pieces.append((stay.at, stay.end, texts, "=" if touches(tracker, event, number, stay) else "-"))
        line, _ = bar_line(pieces, widest, capacity)
        lines.append(node_name(report, machine, node).ljust(NAMES) + line)
    return lines


def stay_labels(tracker, stay):
    names = {(tracker.places[name].instance, tracker.places[name].array) for name in stay.names}
    whole = " or ".join(sorted(f"{instance} {array}" for instance, array in names))
    arrays = " or ".join(sorted({array for _, array in names}))
    if not stay.block or stay.how == ENTRY:
        return [f" {whole} ", arrays]
    block = ("+" if stay.combined else "") + stay.block
    return [f" {whole} = {block} ", f" {arrays} = {block} ", f" {block} ", block, arrays]


def touches(tracker, event, number, stay):
    if number in stay.leaves:
        return True
    for node, at in ((event.source, event.source_at), (event.to, event.to_at)):
        if node == stay.node and event.size and stay.at <= at < stay.end and stay.first <= number <= stay.last:
            return True
    return False


# ---- all of it


def notes(report):
    lines = []
    for line, column, instance, param in report.loops():
        place = f"{line}:{column}".ljust(NAMES)
        if param:
            lines.append(f"{place}hoisted: transfers for {param} stand outside this loop of {instance}")
        else:
            lines.append(f"{place}overlapped: transfers of this loop of {instance} stand beside its calls")
    return lines


def memories(report, machine, mapping):
    lines = tree(report, machine)
    for level, layouts in enumerate(layouts_of(report, mapping)):
        lines += [""] + level_bars(report, machine, layouts, level)
    return lines


def finished(lines):
    return "\n".join(line.rstrip() for line in lines) + "\n"


def picture(report, machine, mapping, tracker=None, number=None):
    lines = memories(report, machine, mapping) + [""]
    for edge in report.edges:
        lines.append(f"{edge.upper.ljust(NAMES)}{edge.down} bytes down to {edge.lower}, {edge.up} up")
    lines.append(f"{''.ljust(NAMES)}{report.leaves} leaf call{'' if report.leaves == 1 else 's'}")
    lines += notes(report)
    if tracker and number is not None:
        lines += [""] + event_bars(report, machine, tracker, number)
    return finished(lines)


def lacking(line, report, machine, mapping):
    """The memories of a program that is refused with this line, by the report of a machine with room."""
    told = f"The buffers of its plan on a machine with more room; {OVER} is what doesn't fit:"
    return finished([line, "", told, "", *memories(report, machine, mapping)])
