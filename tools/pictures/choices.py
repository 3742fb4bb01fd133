"""What a table of choices tells, the mapping of each choice, and the table as text for a terminal of 100 columns."""
import re
import textwrap

COLUMNS = 100
LEAST_BAR = 12  # columns
SIGNS = "#=+:%o*"  # of the edges, from the root down, in a bar
SHADES = ".:-=+*%@"  # from the least traffic to the greatest
MOST_PLANS = 64  # accepted choices up to which each one's plan is asked for the bytes of its edges


# ---- the mapping of a choice

TOKENS = re.compile(r"/\*.*?\*/|//[^\n]*|[A-Za-z_]\w*|\d+|::|->|[^\sA-Za-z_\d]", re.S | re.A)


def alternatives(mapping):
    """(from, to, the alternatives) of each item of the text that has several, in order."""
    found, begin, parts = [], None, []
    for match in TOKENS.finditer(mapping):
        word = match.group()
        if word.startswith(("//", "/*")):
            continue
        if word == "=":
            begin, parts = match.end(), [[]]
        elif word == ";":
            if begin is not None and len(parts) > 1:
                found.append((begin, match.start(), [" ".join(words) for words in parts]))
            begin = None
        elif word == "|" and begin is not None:
            parts.append([])
        elif begin is not None:
            parts[-1].append(word)
    return found


def mapping_of(mapping, number):
    """The text with the alternatives of this choice alone; the last item varies fastest."""
    for begin, end, several in reversed(alternatives(mapping)):
        number, at = divmod(number, len(several))
        mapping = f"{mapping[:begin]} {several[at]}{mapping[end:]}"
    return mapping


# ---- what a table tells


def grid(table):
    """The values of both tunables, where there are two and each pair of values is a choice, in order."""
    if len(table.tunables) != 2:
        return None
    first, second = (list(dict.fromkeys(choice.values[at] for choice in table.choices)) for at in (0, 1))
    pairs = [[one, other] for one in first for other in second]
    return (first, second) if pairs == [choice.values for choice in table.choices] else None


def settings(table, choice):
    return " ".join(f"{tunable}={value}" for tunable, value in zip(table.tunables, choice.values))


def edges(table):
    """(upper, lower) of each edge, where the plans were asked for them."""
    return [(edge.upper, edge.lower) for edge in table.best.edges] if table.best else []


def told(table):
    """How many choices there are, and which is the best, in two sentences."""
    count, refused = len(table.choices), len(table.choices) - len(table.accepted())
    if table.best is None:
        return "The one choice is refused." if count == 1 else f"All of the {count:,} choices are refused."
    front = f"{count:,} choice{'' if count == 1 else 's'}" + (f", {refused:,} of them refused." if refused else ".")
    set_to = settings(table, table.best)
    best = f"choice {table.best.number:,}" + (f", {set_to}" if set_to else "")
    return f"{front} The best is {best}: {table.best.traffic:,} byte{'' if table.best.traffic == 1 else 's'}."


# ---- as text


def layout(table, room):
    """Of each tunable the columns of its values, with the blanks before them, and what stands above: where there is no
    room for the names, letters."""
    names = [len(tunable) for tunable in table.tunables]
    values = [max(len(choice.values[at]) for choice in table.choices) for at in range(len(names))]
    whole = [max(pair) + 2 for pair in zip(names, values)]
    if sum(whole) <= room:
        return whole, table.tunables
    # Of values that are too long each loses its end, as much as has to be.
    most = next((most for most in range(room, 3, -1) if sum(min(value + 2, most) for value in values) <= room), 3)
    return [min(value + 2, most) for value in values], [chr(ord("a") + at) for at in range(len(values))]


def cut(text, room):
    return text if len(text) <= room else text[: max(room - 2, 0)] + ".."[: min(room, 2)]


def bar(choice, greatest, room):
    """As long as the traffic; with edges, a part for each."""
    parts = [(edge.down + edge.up, sign) for edge, sign in zip(choice.edges, SIGNS)] or [(choice.traffic, SIGNS[0])]
    line, sum_of = "", 0
    for bytes_of, sign in parts:
        sum_of += bytes_of
        line = line.ljust(min(sum_of * room // greatest if greatest else 0, room), sign)
    return line


def shade(table, choice, least, greatest):
    """The sign of a choice in the grid."""
    if choice.refused is not None:
        return "x"
    if choice is table.best:
        return "B"
    return SHADES[(choice.traffic - least) * (len(SHADES) - 1) // (greatest - least) if greatest > least else 0]


def grid_lines(table):
    """Where there are two tunables, a sign for each pair of their values, as far as a terminal is wide enough."""
    axes = grid(table)
    if not axes:
        return []
    width, carried = len(axes[1]), [choice.traffic for choice in table.accepted()] or [0]
    ends = min(carried), max(carried)
    signs = [shade(table, choice, *ends) for choice in table.choices]
    signs = [signs[at : at + width] for at in range(0, len(signs), width)]
    (down, right), (first, second) = axes, table.tunables
    if width > len(down):
        down, right, first, second, signs = right, down, second, first, list(zip(*signs))
    room = max(min(max(map(len, down)), 20), 5)
    if len(right) > COLUMNS - room - 2:
        return []
    gap = " " if 2 * len(right) <= COLUMNS - room - 2 else ""
    told = (
        f"Value by value: {first} downwards, {second} to the right, from {right[0]} to {right[-1]}. The signs are "
        f"{' '.join(SHADES)} from the fewest bytes to the most, B for the best, x for refused ones."
    )
    rows = [f"{cut(value, room):>{room}}  {gap.join(line)}" for value, line in zip(down, signs)]
    return textwrap.wrap(told, COLUMNS) + [""] + rows + [""]


def picture(table):
    most = max((choice.traffic for choice in table.accepted()), default=0)
    digits = max(len(f"{most:,}"), len("bytes"))
    columns, heads = layout(table, COLUMNS - LEAST_BAR - digits - 13)
    front = 11 + sum(columns) + 1
    lines = textwrap.wrap(told(table), COLUMNS) + [""] + grid_lines(table)
    if heads != table.tunables:
        for head, tunable in zip(heads, table.tunables):
            lines += textwrap.wrap(f"{head}: {tunable}", COLUMNS)
        lines.append("")
    signs = zip(SIGNS, edges(table))
    legend = ", ".join(f"{sign} {cut(upper, 20)} to {cut(lower, 20)}" for sign, (upper, lower) in signs)
    if legend:
        lines += textwrap.wrap(f"Bars, from 0, down and up together: {legend}.", COLUMNS) + [""]
    lines.append(row("", "choice", heads, columns) + " " + "bytes".rjust(digits))
    for choice in table.choices:
        mark = "best" if choice is table.best else ""
        begin = row(mark, f"{choice.number}", choice.values, columns) + " "
        if choice.refused is None:
            room = COLUMNS - front - digits - 1
            lines.append(f"{begin}{choice.traffic:>{digits},} {bar(choice, most, room)}")
        else:
            cause = textwrap.wrap(choice.refused, COLUMNS - front)
            lines += [begin + cause[0]] + [" " * front + more for more in cause[1:]]
    if edges(table):
        lines += [""] + edge_lines(table)
    return "\n".join(line.rstrip() for line in lines) + "\n"


def row(mark, number, values, columns):
    return mark.ljust(5) + number.rjust(6) + cells(values, columns)


def cells(values, columns):
    return "".join(cut(value, column - 2).rjust(column) for value, column in zip(values, columns))


def edge_lines(table):
    """Below one another, for each accepted choice: each edge with its bytes down and up."""
    accepted = table.accepted()
    names = [f"{cut(upper, 20)} to {cut(lower, 20)}" for upper, lower in edges(table)]
    name = max(map(len, names + ["edge"]))
    down = max(len(f"{edge.down:,}") for choice in accepted for edge in choice.edges)
    up = max(len(f"{edge.up:,}") for choice in accepted for edge in choice.edges)
    down, up = max(down, 4), max(up, 2)
    lines = [f"{'choice':>11}  {'edge'.ljust(name)}  {'down':>{down}}  {'up':>{up}}"]
    for choice in accepted:
        for at, edge in enumerate(choice.edges):
            number = "" if at else f"{choice.number}"
            lines.append(f"{number:>11}  {names[at].ljust(name)}  {edge.down:>{down},}  {edge.up:>{up},}")
    return lines
