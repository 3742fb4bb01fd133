"""The picture as one page of HTML, with its style, its script and its data in it."""
import importlib.machinery
import importlib.util
import json
import os
import re
from dataclasses import dataclass, field
from html import escape
from typing import Any, Dict, List, Optional

from saying.values import lack
from sources import Machine, Mapping, Variant
from stays import ENTRY, layouts_of
from sums import traffic
from texts import COPY, FILL, WIDTHS, Report, Trace
from tree import placed_tree

HERE = os.path.dirname(os.path.realpath(__file__))
SCRIPTS = ("traces.js", "words.js", "drawing.js", "page.js")
HOW = {ENTRY: 0, COPY: 1, FILL: 2}


@dataclass
class Run:
    name: str
    trace: Trace
    output: Optional[str]
    tracker: Any = None
    trapped: List[int] = field(default_factory=list)


@dataclass
class Picture:
    names: List[str]  # of the files
    files: List[str]  # the texts of program, mapping and machine
    report: Report
    program: Dict[tuple, Variant]
    mapping: Mapping
    machine: Machine
    runs: List[Run]
    refused: Optional[str]
    filed: Any = None  # a plan file in place of program, mapping and machine


def part(name):
    with open(os.path.join(HERE, name), encoding="utf-8") as file:
        return file.read()


def fill_in(title, body, data, script):
    """Each mark of the frame once, so that a mark in what is filled in stays what it is."""
    parts = {"title": escape(title), "style": part("page.css"), "body": body, "data": data, "script": script}
    return re.sub(r"\{\{(\w+)\}\}", lambda match: parts[match.group(1)], part("page.html"))


def as_json(value):
    """Nothing in it ends the element that it stands in."""
    return json.dumps(value, separators=(",", ":")).replace("<", "\\u003c").replace("&", "\\u0026")


def plural(count, word, several=None):
    return f"{count:,} {word if count == 1 else several or word + 's'}"


# ---- the tree

BOX, TALL, BETWEEN, GUTTER = 112, 58, 30, 200


def tree_box(cell, middle, level, picture):
    left, top = middle - BOX // 2, level * (TALL + BETWEEN)
    if cell.more:
        return f'<text class="more" x="{middle}" y="{top + TALL // 2}">and {cell.more} more</text>'
    node, told = cell.nodes[0], picture.report.levels[level]
    need = told.need_of(node)
    name = node_name(picture, node) if len(cell.nodes) == 1 else f"{len(cell.nodes)} x {told.name}"
    key = f"{level}.{node.index}" if len(cell.nodes) == 1 else ""
    gauge = BOX - 12
    filled = gauge * need // node.capacity if node.capacity else 0
    return (
        f'<g class="memory{" lacks" if told.lacks(node) else ""}" data-node="{key}"><title>{escape(name)}: {plural(node.capacity, "byte")}'
        f'{" each" if len(cell.nodes) > 1 else ""}, need {need:,}</title>'
        f'<rect class="box" x="{left}" y="{top}" width="{BOX}" height="{TALL}" rx="3"/>'
        f'<text class="name" x="{middle}" y="{top + 15}">{escape(name)}</text>'
        f'<text x="{middle}" y="{top + 30}">{need:,} of {node.capacity:,}</text>'
        f'<rect class="gauge" x="{left + 6}" y="{top + 36}" width="{gauge}" height="6"/>'
        f'<rect class="need" x="{left + 6}" y="{top + 36}" width="{min(filled, gauge)}" height="6"/>'
        f'<text class="now" x="{middle}" y="{top + 54}"></text></g>'
    )


def node_name(picture, node):
    return node.name or picture.report.levels[node.level].node_name(node.index)


def level_text(told, top):
    """What stands beside a level: its name, and what its nodes need and use together."""
    own = "" if told.own else f"need {told.need:,}, "
    lines = [plural(told.nodes, "memory", "memories"), f"{own}used up to {told.used:,}"]
    spans = "".join(f'<tspan x="-{GUTTER}" dy="15">{line}</tspan>' for line in lines)
    return f'<text class="level" x="-{GUTTER}" y="{top + 15}"><tspan class="name">{escape(told.name)}</tspan>{spans}</text>'


def tree(picture):
    placed, width = placed_tree(picture.machine, lambda cell: BOX, (40, 20, 10), 1250)
    parts = []
    for level, row in enumerate(placed):
        top = level * (TALL + BETWEEN)
        parts.append(level_text(picture.report.levels[level], top))
        for cell, middle, below in row:
            for other in below:
                ends = f'x1="{middle}" y1="{top + TALL}" x2="{other}" y2="{top + TALL + BETWEEN}"'
                parts.append(f'<line class="edge" {ends}/>')
            parts.append(tree_box(cell, middle, level, picture))
    height = len(placed) * (TALL + BETWEEN) - BETWEEN
    box = f"-{GUTTER} -4 {GUTTER + width + 4} {height + 8}"
    size = f'style="width:{GUTTER + width + 4}px"'
    return f'<svg class="tree" {size} viewBox="{box}" role="img" aria-label="The tree of memories">{"".join(parts)}</svg>'


# ---- bars of the plan

MOST_BARS, MOST_ROWS = 16, 12


def share(count, whole):
    return f"{100 * count / whole if whole else 0:.3f}%"


def buffer_box(buffer, node, reach, calls):
    """The box of a buffer; what of it lies behind the end of its memory is marked."""
    several = f", of {calls} calls" if calls > 1 else ""
    told = f"{buffer.instance} {buffer.array}: bytes {buffer.offset:,} to {buffer.end - 1:,}{several}"
    where = f"left:{share(buffer.offset, reach)};width:{share(buffer.size, reach)}"
    text = f"<b>{escape(buffer.instance)} {escape(buffer.array)}</b> {buffer.size:,}"
    data = f'data-offset="{buffer.offset}" data-size="{buffer.size}"'
    kind, over = "buffer", min(buffer.end - node.capacity, buffer.size)
    if over > 0:
        kind, text = "buffer over", f'<i class="past" style="width:{share(over, buffer.size)}"></i>{text}'
        told += f", {over:,} behind the end of the memory"
    return f'<span class="{kind}" style="{where}" title="{escape(told)}" {data}>{text}</span>'


def plan_bar(node, level, layouts, name, widest):
    """A row for each layout of buffers that a call has at the node."""
    reach, lacks = level.reach(node), level.lacks(node)
    fitting = [layout for layout in layouts if layout.end <= reach]
    room = f'<span class="room" style="width:{share(node.capacity, reach)}"></span>' if lacks else ""
    rows = []
    for layout in fitting[:MOST_ROWS]:
        boxes = "".join(buffer_box(buffer, node, reach, layout.calls) for buffer in layout.buffers)
        rows.append(f'<div class="track">{room}{boxes}</div>')
    more = f'<p class="more">and {plural(len(fitting) - MOST_ROWS, "more row")}, of other calls</p>'
    marks = {0, reach} | {buffer.offset for layout in fitting[:MOST_ROWS] for buffer in layout.buffers}
    kept = thin(sorted(marks), reach)
    ticks = "".join(f'<span style="left:{share(at, reach)}">{at:,}</span>' for at in kept)
    bar = "".join(rows) or f'<div class="track">{room}</div>'
    kind, mark = ("bar lacks", capacity_mark(node, reach)) if lacks else ("bar", "")
    bar = f'<div class="{kind}" style="width:{share(reach, widest)}">{mark}{bar}<div class="ticks">{ticks}</div></div>'
    told = escape(lack(node.name or level.name, level.need_of(node), node.capacity)) if lacks else ""
    told = told and f'<p class="lack">{told}</p>'
    more = more if len(fitting) > MOST_ROWS else ""
    return f'<div class="node"><b>{escape(name)}</b><div>{bar}{told}{more}</div></div>'


def capacity_mark(node, reach):
    """A line across a bar where its memory ends, with its number beside it where there is room."""
    side = "left" if 2 * node.capacity > reach else "right"
    where = f'style="left:{share(node.capacity, reach)}" data-capacity="{node.capacity}"'
    return f'<span class="capacity {side}" {where}><b>capacity {node.capacity:,}</b></span>'


def thin(marks, capacity):
    """Of the numbers below a bar those with room beside one another, the first and the last among them."""
    kept, room = [], capacity * 0.07
    for mark in marks:
        if mark == capacity or not kept or (mark - kept[-1] >= room and capacity - mark >= room):
            kept.append(mark)
    return kept


def plan_bars(picture):
    parts = []
    for level, layouts in enumerate(layouts_of(picture.report, picture.mapping)):
        told, nodes = picture.report.levels[level], picture.machine.nodes[level]
        named = picture.machine.version == 2
        shown = nodes[:MOST_BARS] if named else nodes[:1]
        widest = max(map(told.reach, nodes))
        alike = "" if named or told.nodes == 1 else f", each of {told.nodes:,}"
        parts += [plan_bar(node, told, layouts, node.name or told.name + alike, widest) for node in shown]
        if len(shown) < len(nodes) and named:
            parts.append(f'<p class="more">and {plural(len(nodes) - len(shown), "more memory", "more memories")}</p>')
    return "".join(parts)


# ---- the program beside it


def program_lines(picture, mark=None):
    """The program's lines with their numbers, and what the plan does at them."""
    notes = {}
    for line, _, instance, param in picture.report.loops():
        if param:
            told = f"hoisted: the transfers for {param} stand outside this loop, in instance {instance}"
        else:
            told = f"overlapped: transfers of the next iteration beside the calls of this one, in instance {instance}"
        notes.setdefault(line, []).append((("hoist", "&#8613;") if param else ("overlap", "&#8649;"), told))
    return source_lines(picture.files[0], notes, mark)


def source_lines(text, notes=None, mark=None):
    lines = []
    for number, line in enumerate(text.split("\n"), 1):
        marked = mark is not None and mark[0] == number
        if not line and number == text.count("\n") + 1 and not marked:
            continue
        shown = escape(line)
        if marked:
            cut = column_at(line, mark[1])
            shown = f"{escape(line[:cut])}<mark>{escape(line[cut:cut + 1] or ' ')}</mark>{escape(line[cut + 1:])}"
        told = "".join(
            f'<span class="note {kind}"><span aria-hidden="true">{sign}</span> {escape(text)}</span>'
            for (kind, sign), text in (notes or {}).get(number, [])
        )
        state = ' class="marked"' if marked else ""
        lines.append(f'<li id="line-{number}"{state}><code>{shown or " "}</code>{told}</li>')
    return f'<ol class="source">{"".join(lines)}</ol>'


def column_at(line, column):
    """The index of a column in bytes."""
    front = line.encode("utf-8")[: column - 1]
    return len(front.decode("utf-8", "ignore"))


# ---- refusals and traps


def say(line, words, report=None):
    """What tools/say adds to a refusal or a trap: its place, its cause and its cure; `report` is that of the plan of a
    program whose memories are too small."""
    loader = importlib.machinery.SourceFileLoader("say", os.path.join(os.path.dirname(HERE), "say"))
    module = importlib.util.module_from_spec(importlib.util.spec_from_loader("say", loader))
    loader.exec_module(module)
    return module.say(line, words, lambda files, fault: report) or ""


def place_in(line):
    match = re.match(r"refused (\w+) \w+(?: (\d+):(\d+))?", line)
    if match:
        place = (int(match.group(2)), int(match.group(3))) if match.group(2) else None
        return match.group(1), place
    match = re.match(r"trapped \w+ (\d+):(\d+) ", line)
    return ("trap", (int(match.group(1)), int(match.group(2)))) if match else ("", None)


def stopped(line, names, command="run", report=None):
    told = say(line, [command, *names], report)
    return f'<section class="stopped" id="stopped"><h2><code>{escape(line)}</code></h2><pre>{escape(told)}</pre></section>'


PHASE_FILES = {"program": 0, "types": 0, "resolve": 0, "race": 0, "mapping": 1, "machine": 2, "plan": 0, "cost": 3}


def refusal(names, files, line, lacks="plan", command="run"):
    """The page of a program that has no plan, or no table of choices, or of a plan file that has no run."""
    phase, place = place_in(line)
    number = PHASE_FILES.get(phase)
    source = ""
    if number is not None and place:
        source = f"<section><h2>{escape(names[number])}</h2>{source_lines(files[number], None, place)}</section>"
    body = f"<header><h1>{escape(names[0])}</h1><p>has no {lacks}: it is refused.</p></header>{stopped(line, names, command)}{source}"
    return fill_in(f"{names[0]}: {line}", body, "null", "")


# ---- what the script draws from


def stay_columns(run, blocks, numbers):
    """The stays in the order of their first events, column by column, which a browser reads fast: `first` from that of
    the stay before, `last` and a single leaf call from `first`, bytes only where they aren't those of the place."""
    columns = {name: [] for name in ("names", "node", "first", "last", "how", "block", "leaves")}
    parts, before = {}, 0
    for count, stay in enumerate(sorted(run.tracker.stays, key=lambda stay: stay.first)):
        columns["names"].append(stay.names[0] if len(stay.names) == 1 else stay.names)
        columns["node"].append(numbers[stay.node])
        columns["first"].append(stay.first - before)
        columns["last"].append(stay.last - stay.first)
        columns["how"].append(HOW[stay.how] + 3 * stay.combined)
        columns["block"].append(blocks.setdefault(stay.block, len(blocks)))
        single = stay.leaves[0] - stay.first if len(stay.leaves) == 1 else -1
        columns["leaves"].append(stay.leaves if len(stay.leaves) > 1 else single)
        place = run.tracker.places[stay.names[0]]
        if (stay.at, stay.size) != (place.offset, place.size):
            parts[count] = [stay.at, stay.size]
        before = stay.first
    return {**columns, "parts": parts}


def entry_shapes(picture):
    """The element's bytes and the extents of each of the entry's arrays, which come first in the report."""
    if picture.filed:
        return picture.filed.shapes()
    entry = picture.mapping.instances.get(picture.mapping.entry)
    variant = picture.program.get((entry.task, entry.variant)) if entry else None
    shapes = []
    for param in variant.params if variant else []:
        extents = [int(word) if word.isdigit() else picture.mapping.sizes.get(word, 0) for word in param.extents]
        shapes.append([WIDTHS.get(param.elem, 1), extents])
    return shapes


def mode_of(picture, place):
    if picture.filed:
        return picture.filed.mode(place)
    instance = picture.mapping.instances.get(place.instance)
    variant = picture.program.get((instance.task, instance.variant)) if instance else None
    array = variant.array(place.array) if variant else None
    return array.mode if array else ""


def data(picture):
    blocks, first = {}, picture.runs[0].tracker
    nodes = [(node.level, node.index) for level in picture.machine.nodes for node in level]
    numbers = {node: number for number, node in enumerate(nodes)}
    runs = [
        {
            "name": run.name,
            "count": len(run.trace.events),
            "trace": "".join(line + "\n" for line in run.trace.lines),
            "stays": stay_columns(run, blocks, numbers),
            "trap": run.trace.trap,
            "trapped": run.trapped,
            **({"rows": [event.place[0] for event in run.tracker.events]} if picture.filed else {}),
        }
        for run in picture.runs
    ]
    lines = picture.filed.tasks() if picture.filed else {}
    for instance in picture.mapping.instances.values():
        variant = picture.program.get((instance.task, instance.variant))
        if variant:
            lines[instance.name] = [f"{instance.task}::{instance.variant}", variant.first, variant.last]
    return as_json(
        {
            "levels": [level.name for level in picture.report.levels],
            "nodes": [
                [[node_name(picture, node), node.capacity, [below.index for below in node.below]] for node in nodes]
                for nodes in picture.machine.nodes
            ],
            "places": [
                [p.level, p.offset, p.size, p.instance, p.array, mode_of(picture, p)] for p in first.places
            ],
            "shapes": entry_shapes(picture),
            "edges": [[edge.upper, edge.lower, edge.down, edge.up] for edge in picture.report.edges],
            "instances": lines,
            "blocks": list(blocks),
            "runs": runs,
        }
    )


# ---- the page


def traffic_table(picture):
    rows = "".join(
        f"<tr><th>{escape(edge.upper)} &#8596; {escape(edge.lower)}</th><td>{edge.down:,}</td><td>{edge.up:,}</td></tr>"
        for edge in picture.report.edges
    )
    head = "<tr><th>edge</th><th>bytes down</th><th>bytes up</th></tr>"
    leaves = f"<p>{plural(picture.report.leaves, 'leaf call')} in a run that doesn't trap.</p>"
    return (f"<table>{head}{rows}</table>" if rows else "<p>One level: nothing goes from one to another.</p>") + leaves


def agreement(picture, run):
    """Whether what the trace carries is what the plan says."""
    if run.trace.trap:
        return "The run trapped, so it carries no more than a part of what the plan says."
    found = traffic(picture.report, run.trace)
    planned = [(edge.down, edge.up) for edge in picture.report.edges]
    leaves = sum(event.kind == "leaf" for event in run.trace.events)
    if found == planned and leaves == picture.report.leaves:
        return "All its transfers together carry what the plan says, and it has as many leaf calls."
    return "This trace is not of a whole run of this plan: it carries other sums, or has another number of leaf calls."


def results(picture):
    """The output arrays of the runs, and whether they are the same."""
    outputs = [(run.name, run.output) for run in picture.runs if run.output is not None]
    if not outputs:
        return ""
    first, same = outputs[0][1], all(output == outputs[0][1] for _, output in outputs)
    shown = first if len(first) <= 4000 else first[:4000] + "\n.."
    if len(outputs) < 2:
        told = f"What {outputs[0][0]} wrote:"
    elif same:
        told = f"{' and '.join(name for name, _ in outputs)} wrote the same {plural(len(first.encode()), 'byte')}:"
    else:
        told = f"THE OUTPUTS DIFFER. What {outputs[0][0]} wrote:"
    state = "same" if same else "differ"
    return f'<section id="results" data-outputs="{state}"><h2>What was written</h2><p>{escape(told)}</p><pre>{escape(shown)}</pre></section>'


LEGEND = """
<section id="legend"><h2>How to read it</h2>
<dl>
<dt><svg class="key" viewBox="0 0 40 16"><path class="k-fill" d="M20 2 L26 8 L20 14 L14 8 Z"/></svg> fill</dt>
<dd>a row of a buffer is filled: with zeros, or with the identity of a reduction</dd>
<dt><svg class="key" viewBox="0 0 40 16"><path class="k-down" d="M13 3 H27 L20 14 Z"/></svg> copy down</dt>
<dd>a row goes from a memory to one below it; the line begins at the lane that it comes from</dd>
<dt><svg class="key" viewBox="0 0 40 16"><path class="k-up" d="M13 13 H27 L20 2 Z"/></svg> copy up</dt>
<dd>a row goes back to the memory above</dd>
<dt><svg class="key" viewBox="0 0 40 16"><path class="k-within" d="M13 2 L27 8 L13 14 Z"/></svg> copy within</dt>
<dd>a row is copied from one buffer to another of the same memory</dd>
<dt><svg class="key" viewBox="0 0 40 16"><circle class="k-acc" cx="20" cy="8" r="6.5"/><path class="k-plus" d="M20 4 V12 M16 8 H24"/></svg> sum</dt>
<dd>a row is combined into one of the memory above, by the operator that the line names; its line is dashed</dd>
<dt><svg class="key" viewBox="0 0 40 16"><rect class="k-leaf" x="14" y="2" width="12" height="12"/></svg> leaf call</dt>
<dd>a leaf variant runs at this memory</dd>
</dl>
<p><b>Which bytes hold what, and when.</b> A trace names bytes. A bar in a lane stands for what was brought into one
buffer: it begins at the event that brings its first row in, by a copy or a fill, and ends at the last event that touches
these bytes before something else is brought in over them. A leaf call counts as touching what was brought in for it. So a
bar says &ldquo;touched between these two events&rdquo;; the buffer itself may be in use for longer. The entry's arrays
stand for the whole run.</p>
<p>Elements as A[4..8] are those of the entry's arrays, from the first on and before the last: where the rows came from,
or, for what begins as a fill, where they go later; with + where they are combined into it. What is combined into
another buffer on its way names that one. Where buffers of different
calls lie over one another and the texts don't tell which one it is, all are named with <i>or</i>. Arguments that a leaf
uses in place, in a buffer of its caller at the same memory, appear in no line of a trace, and so not here.</p>
</section>
"""


def sources(picture):
    if picture.filed:
        return f"Plan file {picture.names[0]}"
    return f"Program {picture.names[0]}, mapping {picture.names[1]}, machine {picture.names[2]}"


def memories(picture):
    return (
        '<section id="memories"><h2>The memories</h2>'
        "<p>Each box is one memory: the bytes that it needs, of the bytes that it has.</p>"
        f"{tree(picture)}</section>"
    )


def lacking(picture, report):
    """The page of a program whose memories are too small: its buffers by the report of a machine with more room."""
    title = f"{picture.names[0]} on {picture.names[2]}"
    told = "; ".join(lack(name, need, memory.capacity) for name, need, memory in picture.report.lacking(picture.machine))
    body = (
        f"<header><h1>{escape(title)}</h1><p>has no plan: <b>{escape(told)}</b>.</p></header>",
        stopped(picture.refused, picture.names, "plan", report),
        memories(picture),
        '<section id="plan"><h2>Where buffers would lie</h2>',
        "<p>Each bar is the bytes of one memory, from byte 0 on. Its rows have the buffers of calls, by the plan on a "
        "machine with more room. A memory that is too small ends at the line with its capacity; what lies behind that doesn't "
        "fit.</p>",
        f"{plan_bars(picture)}</section>",
        source_texts(picture),
    )
    return fill_in(f"{title}: {picture.refused}", "".join(body), "null", "")


def source_texts(picture):
    return "".join(
        f"<details><summary>The {kind}</summary><pre>{escape(text)}</pre></details>"
        for kind, text in zip(("program", "mapping", "machine"), picture.files)
    )


def page(picture):
    owner = "scope" if picture.filed else "call"
    title = picture.names[0] if picture.filed else f"{picture.names[0]} on {picture.names[2]}"
    command = "exec" if picture.filed else "run"
    stopped_line = picture.refused or next((run.trace.trap for run in picture.runs if run.trace.trap), None)
    mark = place_in(stopped_line)[1] if stopped_line and place_in(stopped_line)[0] == "trap" else None
    body = [
        f"<header><h1>{escape(title)}</h1>",
        f"<p>{escape(sources(picture))}. ",
        "Below: the memories of the machine, what the plan needs of them and where its buffers lie",
        ", and what happens when, event by event.</p></header>" if picture.runs else ".</p></header>",
        stopped(stopped_line, picture.names, command) if stopped_line else "",
        memories(picture),
        '<div class="two"><div><section id="plan"><h2>Where buffers lie</h2>',
        f"<p>Each bar is the bytes of one memory, from byte 0 to its capacity. A row has the buffers of one {owner}; those of",
        f" {owner}s at different times may lie over one another.",
        " A memory has the rows that fit into it.</p>" if picture.machine.version == 2 else "</p>",
        plan_bars(picture),
        f'</section><section id="traffic"><h2>What the edges carry</h2>{traffic_table(picture)}</section></div>',
        f'<section id="program"><h2>The {"plan file" if picture.filed else "program"}</h2>',
        f"{program_lines(picture, mark)}</section></div>",
        controls(picture) + runs(picture) + results(picture) + LEGEND if picture.runs else "",
    ]
    if not picture.filed:
        body.append(f"<details><summary>The mapping</summary><pre>{escape(picture.files[1])}</pre></details>")
        body.append(f"<details><summary>The machine</summary><pre>{escape(picture.files[2])}</pre></details>")
    if not picture.runs:
        return fill_in(title, "".join(body), "null", "")
    return fill_in(title, "".join(body), data(picture), "".join(map(part, SCRIPTS)))


def controls(picture):
    most = max(len(run.trace.events) for run in picture.runs)
    return (
        '<noscript><p class="stopped">Stepping through events needs a browser that runs scripts.</p></noscript>'
        '<nav id="controls" aria-label="Steps"><div class="buttons">'
        '<button id="home" title="first event (Home)">|&#9664;</button><button id="back" title="one back (Left)">&#9664;</button>'
        '<button id="on" title="one on (Right)">&#9654;</button><button id="end" title="last event (End)">&#9654;|</button></div>'
        f'<label>event <output id="at">1</output> of {most:,}'
        f'<input id="slider" type="range" min="1" max="{max(most, 1)}" value="1" aria-label="event"></label>'
        '<div class="buttons"><button id="less" title="more events in view (-)">&#8722;</button>'
        '<button id="more" title="fewer events in view (+)">+</button></div>'
        "<p class=\"keys\"><kbd>&larr;</kbd> <kbd>&rarr;</kbd> one event, <kbd>PgUp</kbd> <kbd>PgDn</kbd> a window, "
        "<kbd>Home</kbd> <kbd>End</kbd>, <kbd>l</kbd> next leaf call, <kbd>n</kbd> next event at the same memory "
        "(with <kbd>Shift</kbd> back), <kbd>+</kbd> <kbd>&minus;</kbd> zoom</p></nav>"
    )


def runs(picture):
    parts = []
    for number, run in enumerate(picture.runs):
        parts.append(
            f'<article class="run" data-run="{number}" aria-label="{escape(run.name)}">'
            f"<h2>{escape(run.name)} <small>{plural(len(run.trace.events), 'event')}</small></h2>"
            f'<p class="line" aria-live="polite"><b class="number"></b> <code class="event"></code></p><p class="says"></p>'
            f'<div class="trapped"></div>'
            f'<h3>The memories at this event</h3><div class="bars"></div>'
            f'<h3>All events</h3><div class="overview"></div>'
            f'<h3>Lanes, one a memory</h3><div class="lanes"></div>'
            f'<h3>Carried so far</h3><table class="carried"></table><p class="agreement">{agreement(picture, run)}</p>'
            f'<details class="words"><summary>In words</summary><ul></ul></details>'
            f'<h3>The trace here</h3><ol class="trace"></ol></article>'
        )
    return f'<div class="runs of-{len(picture.runs)}">{"".join(parts)}</div>'
