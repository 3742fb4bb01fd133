"""A table of choices as one page: a bar for each choice, and shades where there are two tunables."""
from html import escape
from math import ceil

import choices
from page import as_json, fill_in, part, plural, share

# The classes of the edges' colours, from the root down.
COLOURS = ("down", "up", "leaf", "acc", "within", "fill", "dim")
# Of the grid in pixels: room beside it and above it, its width, a digit, and the height of a box by how many there are.
GUTTER, HEAD, WIDEST, DIGIT = 120, 34, 1100, 7
HEIGHTS = ((40, 26), (256, 16), (10000, 5))
ROOM, MONO = 72, 7.9  # for the settings: their characters, and the pixels of each
FAINT, FULL = 0.04, 0.5  # the shades of the least and of the greatest traffic


def edge_name(edge):
    return f"{escape(edge[0])} &#8596; {escape(edge[1])}"


# ---- the shades


class Grid:
    """The choices of two tunables in rows and columns, the longer axis going down where it wouldn't fit to the right."""

    def __init__(self, table, axes):
        columns = len(axes[1])
        self.table, self.names, self.axes = table, table.tunables, axes
        self.cells = [table.choices[at : at + columns] for at in range(0, len(table.choices), columns)]
        if columns > max(32, len(axes[0])):
            self.names, self.axes, self.cells = self.names[::-1], axes[::-1], list(zip(*self.cells))
        traffic = [choice.traffic for choice in table.accepted()] or [0]
        self.least, self.greatest = min(traffic), max(traffic)
        self.width = min(max(56, DIGIT * len(f"{self.greatest:,}") + 8), WIDEST / len(self.axes[1]))
        self.height = next(height for most, height in HEIGHTS if len(self.axes[0]) <= most)
        self.heads = [choices.cut(value, max(int(self.width // DIGIT), 8)) for value in self.axes[1]]
        self.over = max(0, DIGIT * max(map(len, self.heads)) - self.width) / 2  # by which a column's name is wider than it

    def cell(self, line, column):
        """A choice; its bytes are written where there is room."""
        choice = self.cells[line][column]
        left, top = GUTTER + column * self.width, HEAD + line * self.height
        box = f'x="{left:g}" y="{top:g}" width="{self.width:g}" height="{self.height}"'
        title = f"<title>choice {choice.number}, {escape(choices.settings(self.table, choice))}: "
        if choice.refused is not None:
            return f'<rect class="refused" {box}>{title}{escape(choice.refused)}</title></rect>'
        span = self.greatest - self.least
        shade = FAINT + (FULL - FAINT) * (choice.traffic - self.least) / span if span else FAINT
        mark = ' class="best"' if choice is self.table.best else ""
        written = f"{choice.traffic:,}"
        text = f'<text x="{left + self.width / 2:g}" y="{top + self.height / 2 + 4:g}">{written}</text>'
        shown = text if DIGIT * len(written) < self.width and self.height > 12 else ""
        return f'<rect{mark} fill-opacity="{shade:.3f}" {box}>{title}{plural(choice.traffic, "byte")}</title></rect>{shown}'

    def labels(self):
        """The names of both axes, and of their values those that have room."""
        down, right = self.axes
        middle, end = GUTTER + len(right) * self.width / 2, GUTTER - 8
        yield f'<text class="axis" x="{middle:g}" y="12">{self.names[1]}</text>'
        yield f'<text class="axis value" x="{end - self.over:g}" y="{HEAD - 6}">{choices.cut(self.names[0], 16)}</text>'
        for column in range(0, len(right), ceil(DIGIT * max(map(len, self.heads)) / self.width)):
            yield f'<text x="{GUTTER + (column + 0.5) * self.width:g}" y="{HEAD - 6}">{self.heads[column]}</text>'
        for line in range(0, len(down), ceil(12 / self.height)):
            top = HEAD + (line + 0.5) * self.height + 4
            yield f'<text class="value" x="{end}" y="{top:g}">{choices.cut(down[line], 16)}</text>'

    def draw(self):
        """The best one comes last, so that its edge lies over its neighbours."""
        places = [(line, column) for line in range(len(self.axes[0])) for column in range(len(self.axes[1]))]
        places.sort(key=lambda place: self.cells[place[0]][place[1]] is self.table.best)
        inside = "".join(self.labels()) + "".join(self.cell(*place) for place in places)
        wide, high = GUTTER + len(self.axes[1]) * self.width + self.over + 4, HEAD + len(self.axes[0]) * self.height + 4
        size = f'style="width:{wide:g}px" viewBox="0 0 {wide:g} {high:g}"'
        return f'<svg class="shades" {size} role="img" aria-label="The traffic of each pair of values">{inside}</svg>'


def shades(table):
    axes = choices.grid(table)
    if not axes:
        return ""
    grid = Grid(table, axes)
    told = (
        f"A box is a choice: {grid.names[0]} downwards, {grid.names[1]} to the right. The fuller its colour, the more "
        f"bytes its plan carries, from {grid.least:,} to {grid.greatest:,}. The best one has a thick edge; refused ones "
        "have no colour and a dotted edge."
    )
    return f'<section id="shades"><h2>Value by value</h2><p>{told}</p><div class="wide">{grid.draw()}</div></section>'


# ---- the rows


def bar(choice, greatest):
    if not choice.edges:
        return f'<i style="width:{share(choice.traffic, greatest)}"></i>'
    return "".join(
        f'<i class="b-{colour}" style="width:{share(edge.down + edge.up, greatest)}"></i>'
        for colour, edge in zip(COLOURS, choice.edges)
    )


def row(table, choice, greatest, columns):
    set_to = choices.cells(choice.values, columns)
    title = f' title="{choices.settings(table, choice)}"' if ".." in set_to else ""
    front = f'<td class="set"{title}>{set_to}</td>'
    if choice.refused is not None:
        cause = f'<td class="long"><code>{escape(choice.refused)}</code></td>'
        return f'<tr class="refused"><th>{choice.number}</th>{front}<td></td>{cause}</tr>'
    mark, name = (' class="best"', f"best {choice.number}") if choice is table.best else ("", choice.number)
    told = f'<td>{choice.traffic:,}</td><td class="long">{bar(choice, greatest)}</td>'
    return f"<tr{mark}><th>{name}</th>{front}{told}</tr>"


def rows(table):
    """A row for each choice. Its settings are one text in columns, and the table's columns have their widths, so that a
    browser lays out the rows that are seen, and is fast with thousands of them."""
    greatest = max((choice.traffic for choice in table.accepted()), default=0)
    columns, heads = choices.layout(table, ROOM)
    widths = [len(f"best {len(table.choices)}") + 2, max(len(f"{greatest:,}"), 5) + 3]
    middle = f"{sum(columns) * MONO + 12:g}px"
    sized = f"--columns:{widths[0]}ch {middle} {widths[1]}ch minmax(0,1fr)"
    least = f"min-width:calc({sum(widths) + 20}ch + {middle})"
    body = "".join(row(table, choice, greatest, columns) for choice in table.choices)
    edges = zip(COLOURS, choices.edges(table))
    keys = ",".join(f' <i class="key b-{colour}"></i> {edge_name(edge)}' for colour, edge in edges)
    length = "A bar is as long as the bytes that the plan carries, down and up, from 0 on"
    legend = f"<p>{length}{':' + keys if keys else ''}.</p>"
    named = ", ".join(f"<b>{head}</b> {tunable}" for head, tunable in zip(heads, table.tunables) if head != tunable)
    told = f"<p>{named}.</p>" if named else ""
    return (
        f'<section id="choices"><h2>The choices</h2>{legend}{told}'
        f'<p><button id="turn" hidden>least first</button></p><div class="wide"><table class="choices" style="{sized};{least}">'
        f'<thead><tr><th>choice</th><th class="set">{choices.cells(heads, columns)}</th>'
        f"<th>bytes</th><th></th></tr></thead><tbody>{body}</tbody></table></div></section>"
    )


def edge_table(table):
    """What each edge carries, choice by choice."""
    names = choices.edges(table)
    if not names:
        return ""
    heads = "".join(f"<th>{edge_name(edge)} down</th><th>up</th>" for edge in names)
    body = "".join(
        f"<tr><th>{choice.number}</th>"
        + "".join(f"<td>{edge.down:,}</td><td>{edge.up:,}</td>" for edge in choice.edges)
        + "</tr>"
        for choice in table.accepted()
    )
    return (
        '<section id="edges"><h2>What the edges carry</h2><div class="wide"><table><thead><tr><th>choice</th>'
        f"{heads}</tr></thead><tbody>{body}</tbody></table></div></section>"
    )


# ---- the page


def page(names, files, table):
    """`names` and `files` are those of program, mapping and machine, or of the table alone."""
    title = f"{names[0]} on {names[2]}: choices of {names[1]}" if len(names) == 3 else f"Choices of {names[0]}"
    kinds = ("program", "mapping", "machine") if len(names) == 3 else ()
    sources = "".join(
        f"<details><summary>The {kind}</summary><pre>{escape(text)}</pre></details>" for kind, text in zip(kinds, files)
    )
    header = f"<header><h1>{escape(title)}</h1><p>{escape(choices.told(table))}</p></header>"
    body = header + shades(table) + rows(table) + edge_table(table) + sources
    # The rows by traffic, equal ones in order, those that are refused last.
    order = sorted(table.choices, key=lambda choice: (choice.traffic is None, choice.traffic or 0))
    return fill_in(title, body, as_json([choice.number for choice in order]), part("choices.js"))
