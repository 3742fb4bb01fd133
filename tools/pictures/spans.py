"""A timeline as text for a terminal of 80 columns, and as one page."""
import textwrap
from html import escape

from page import as_json, fill_in, part, plural
from timeline import KINDS, NOTHING

COLUMNS, NAME = 80, 22
MOST_ROWS, MOST_LINES = 40, 16  # rows, and events of the chain, that are drawn as text
LISTED = 2000  # events of the chain that a page lists
SIGNS = {"down": "d", "up": "u", "within": "w", "fill": "f", "acc": "s", "leaf": "l"}
WORDS = {
    "down": "copies down", "up": "copies up", "within": "copies within", "fill": "fills", "acc": "sums", "leaf": "leaf calls",
}


def row_name(row):
    return f"  to and from {row.name}" if row.carries else row.name


# ---- as text


def cut(text, room):
    return text if len(text) <= room else text[: room - 2] + ".."


def strip(row, total, room):
    """A row's bars; where several share a column the longest is seen, and before all one of the chain."""
    cells = [" "] * room
    for bar in sorted(row.bars, key=lambda bar: (bar.heavy, bar.weight)):
        if bar.weight:
            begin = bar.begin * room // total
            end = max(begin + 1, bar.end * room // total)
            sign = SIGNS[bar.kind]
            cells[begin:end] = (sign.upper() if bar.heavy else sign) * (end - begin)
    return "".join(cells).rstrip()


def chain_lines(timeline):
    """The chain as `sq span` writes it, each event behind when it begins."""
    bars = [timeline.bars[number] for number in timeline.chain]
    begin = max([len(f"{bar.begin:,}") for bar in bars[:MOST_LINES]] + [len("begins")])
    weight = max([len(f"{bar.weight:,}") for bar in bars[:MOST_LINES]] + [len("weighs")])
    yield f"{'begins':>{begin}}  {'weighs':>{weight}}  the heaviest chain"
    for bar in bars[:MOST_LINES]:
        yield f"{bar.begin:>{begin},}  {bar.weight:>{weight},}  {bar.line}"
    if len(bars) > MOST_LINES:
        yield f"and {len(bars) - MOST_LINES:,} more"


def picture(timeline):
    lines = textwrap.wrap(timeline.told() + " " + NOTHING, COLUMNS)
    if not timeline.bars:
        return "\n".join(lines) + "\n"
    room = COLUMNS - NAME - 1
    end = f"{timeline.total:,}"
    lines += ["", " " * (NAME + 1) + "0" + end.rjust(room - 1)]
    for row in timeline.rows[:MOST_ROWS]:
        lines.append(cut(row_name(row), NAME).ljust(NAME) + "|" + strip(row, timeline.total, room))
    if len(timeline.rows) > MOST_ROWS:
        lines.append(f"and {len(timeline.rows) - MOST_ROWS:,} more rows")
    used = {bar.kind for bar in timeline.bars}
    legend = ", ".join(f"{SIGNS[kind]} {WORDS[kind]}" for kind in KINDS if kind in used)
    lines += [""] + textwrap.wrap(f"{legend}; in capitals those on the heaviest chain.", COLUMNS)
    lines += [""] + list(chain_lines(timeline))
    return "\n".join(line.rstrip() for line in lines) + "\n"


# ---- as a page


def columns(timeline):
    """The bars in the order in which they begin, column by column, which a browser reads fast."""
    bars = sorted(timeline.bars, key=lambda bar: (bar.begin, bar.number))
    return as_json(
        {
            "total": timeline.total,
            "rows": [[row_name(row), row.lanes] for row in timeline.rows],
            "kinds": KINDS,
            "words": [WORDS[kind] for kind in KINDS],
            "row": [bar.row for bar in bars],
            "lane": [bar.lane for bar in bars],
            "begin": [bar.begin for bar in bars],
            "weight": [bar.weight for bar in bars],
            "kind": [KINDS.index(bar.kind) for bar in bars],
            "heavy": [number for number, bar in enumerate(bars) if bar.heavy],
            "lines": "\n".join(bar.line for bar in bars),
        }
    )


def controls(timeline):
    count = len(timeline.bars)
    return (
        '<noscript><p class="stopped">The timeline needs a browser that runs scripts.</p></noscript>'
        '<nav id="controls" aria-label="Steps"><div class="buttons">'
        '<button id="home" title="first event (Home)">|&#9664;</button><button id="back" title="one back (Left)">&#9664;</button>'
        '<button id="on" title="one on (Right)">&#9654;</button><button id="end" title="last event (End)">&#9654;|</button></div>'
        f'<label>event <output id="at">1</output> of {count:,}'
        f'<input id="slider" type="range" min="1" max="{max(count, 1)}" value="1" aria-label="event"></label>'
        '<div class="buttons"><button id="less" title="more in view (-)">&#8722;</button>'
        '<button id="more" title="less in view (+)">+</button></div>'
        '<p class="keys"><kbd>&larr;</kbd> <kbd>&rarr;</kbd> one event, <kbd>PgUp</kbd> <kbd>PgDn</kbd> a window, '
        "<kbd>Home</kbd> <kbd>End</kbd>, <kbd>h</kbd> next on the heaviest chain, <kbd>l</kbd> next leaf call, <kbd>n</kbd> "
        "next in the same row (with <kbd>Shift</kbd> back), <kbd>+</kbd> <kbd>&minus;</kbd> zoom</p></nav>"
    )


def legend(timeline):
    used = {bar.kind for bar in timeline.bars}
    keys = ", ".join(f'<i class="key b-{kind}"></i> {WORDS[kind]}' for kind in KINDS if kind in used)
    return (
        f'<p class="keys">{keys}; full colours with a line below: <i class="key heavy"></i> the heaviest chain. Events begin '
        "as early as the plan's order allows; where some of one row stand beside one another, each has a lane of its own. "
        "Rows of memories that neither perform nor carry anything aren't drawn.</p>"
    )


def chain(timeline):
    bars = [timeline.bars[number] for number in timeline.chain]
    rows = "".join(
        f"<tr><th>{bar.begin:,}</th><td>{bar.weight:,}</td><td><code>{escape(bar.line)}</code></td></tr>" for bar in bars[:LISTED]
    )
    more = f"<p>and {len(bars) - LISTED:,} more</p>" if len(bars) > LISTED else ""
    return (
        f'<details id="chain"><summary>The heaviest chain, {plural(len(bars), "event")}</summary><table class="chain"><thead><tr>'
        f"<th>begins</th><th>weighs</th><th>event</th></tr></thead><tbody>{rows}</tbody></table>{more}</details>"
    )


def page(names, cost, timeline):
    """`names` are those of program, mapping and machine, or of the plan file, and that of the cost file."""
    on = f" on {names[2]}" if len(names) == 4 else ""
    title = f"Timeline of {names[0]}{on}, by {names[-1]}"
    drawn = (
        f'{controls(timeline)}<section id="timeline"><p class="line" aria-live="polite"><b id="number"></b> '
        '<code id="event"></code></p><p class="says" id="says"></p><div id="rows" tabindex="0" role="img" '
        'aria-label="The timeline"><div id="whole"><div id="seen"><canvas id="canvas"></canvas><div id="chosen"></div></div>'
        f"</div></div>{legend(timeline)}</section>{chain(timeline)}"
    )
    body = (
        f'<header><h1>{escape(title)}</h1><p id="told">{timeline.told()} {NOTHING}</p></header>'
        f"{drawn if timeline.bars else ''}<details><summary>The cost file</summary><pre>{escape(cost)}</pre></details>"
    )
    return fill_in(title, body, columns(timeline), part("span.js") if timeline.bars else "")
