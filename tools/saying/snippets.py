"""Lines of a source with marks under places, in the form that rustc made known."""
from dataclasses import dataclass

from sqfiles.tokens import BLANKS, DIGITS, Scanner, Unread

WIDTH = 100


@dataclass
class Span:
    """A place that is marked, with what is said of it."""

    line: int
    column: int
    label: str = ""

    @property
    def place(self):
        return self.line, self.column


def span_of(token, label):
    return Span(token.line, token.column, label)


def lines_at(name, numbers):
    """The lines of these numbers, without their ends. The place behind the last line end is a line too."""
    found, last, count, ended = {}, max(numbers), 0, True
    with open(name, "rb") as file:
        for count, line in enumerate(file, 1):
            if count in numbers:
                found[count] = line.rstrip(b"\n")
            ended = line.endswith(b"\n")
            if count >= last:
                return found
    if ended and last == count + 1:
        found[last] = b""
    return found


def length_at(line, at, words):
    """How many bytes the token at this byte of a line has; of a file of words, the word."""
    if at >= len(line):
        return 1
    if words:
        end = at
        while end < len(line) and line[end] not in BLANKS:
            end += 1
        return max(end - at, 1)
    scanner = Scanner(line, at)
    try:
        scanner.step()
    except Unread as fault:
        if fault.code == "NumberTooBig":
            return len(scanner.while_in(DIGITS))
        return 2 if fault.code == "OpenComment" else 1
    return len(scanner.found[0].text) if scanner.found else 1


def marked(line, span, words, main):
    """A line as it is shown, cut where it is long, and the line of marks below it."""
    at = span.column - 1
    start = 0 if span.column <= WIDTH else span.column - WIDTH // 2
    front = line[start:at].decode("utf-8", "replace")
    token = line[at : at + length_at(line, at, words)][: WIDTH // 2].decode("utf-8", "replace")
    shown = front + line[at : start + WIDTH].decode("utf-8", "replace")
    blank = "".join("\t" if c == "\t" else " " for c in front)
    marks = ("^" if main else "-") * max(len(token), 1)
    return shown, f"{blank}{marks} {span.label}".rstrip()


def snippet(name, spans, words=False):
    """The lines of these spans, the first of which is the one that counts; those that the file hasn't are left out."""
    try:
        lines = lines_at(name, {span.line for span in spans})
    except OSError:
        return []
    main = spans[0]
    known = [span for span in spans if span.line in lines and 1 <= span.column <= len(lines[span.line]) + 1]
    if main not in known:
        return []
    gutter = " " * len(str(max(span.line for span in known)))
    told, last = [f"{gutter}--> {name}:{main.line}:{main.column}", f"{gutter} |"], None
    for span in sorted(known, key=lambda span: (span.line, span.column)):
        shown, marks = marked(lines[span.line], span, words, span is main)
        if last is not None and span.line > last + 1:
            told.append("...")
        if span.line != last or span.column > WIDTH:
            told.append(f"{span.line:>{len(gutter)}} | {shown}")
        told.append(f"{gutter} | {marks}")
        last = span.line
    return told


def wrapped(label, text):
    """A note behind a label, on lines of at most the width."""
    lines, line = [], label
    for word in text.split():
        if len(line) + 1 + len(word) > WIDTH:
            lines.append(line)
            line = " " * len(label)
        line += " " + word
    return lines + [line]
