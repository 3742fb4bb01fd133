"""Comments of a program in its canonical text: each goes back to the tokens between which it stood."""
from dataclasses import dataclass, field
from itertools import accumulate
from typing import Dict, List

from sqfiles.tokens import BLANKS, END, NUMBER, Scanner, Unread

INDENT = "  "


@dataclass
class Comment:
    at: int
    end: int
    token: int  # the number of the token before which it stands


@dataclass
class CommentScanner(Scanner):
    """Keeps the comments that it goes past."""

    comments: List[Comment] = field(default_factory=list)

    def pass_to(self, end):
        if self.data[self.at] not in BLANKS:
            self.comments.append(Comment(self.at, end, len(self.found)))
        super().pass_to(end)


class Misfit(Exception):
    """Two texts that aren't of one program."""


# ---- which tokens of two texts of one program are the same


@dataclass
class Pairs:
    """The tokens of a source and of its canonical text, and which of the latter each of the former is; None where it is
    left out, as brackets that aren't needed are."""

    source: list
    canonical: list
    of: list = field(default_factory=list)
    opened: list = field(default_factory=list)  # of the braces that are open, whether they stand in the source

    def run(self):
        at = 0
        while len(self.of) < len(self.source):
            token, other = self.source[len(self.of)], self.canonical[at]
            if self.leaves_out():
                continue
            if self.is_added(token, other):
                self.go_past(other, False)
            elif same(token, other):
                self.go_past(other, True)
                self.of.append(at)
            elif token.text in ("(", ")"):
                self.of.append(None)
                continue
            else:
                raise Misfit
            at += 1
        if at < len(self.canonical):
            raise Misfit
        return self

    def leaves_out(self):
        """An `else` whose part is empty."""
        texts = [one.text for one in self.source[len(self.of) : len(self.of) + 3]]
        empty = texts == ["else", "{", "}"]
        self.of += [None] * 3 if empty else []
        return empty

    def is_added(self, token, other):
        """Whether the canonical text has a token here that the source hasn't."""
        if other.text == "}":
            return not self.opened[-1]
        added = other.text in ("void", "{", "tunable", "int") and token.text != other.text
        return added and token.text not in ("(", ")")

    def go_past(self, other, in_source):
        if other.text == "{":
            self.opened.append(in_source)
        elif other.text == "}":
            self.opened.pop()


def same(token, other):
    if token.kind == NUMBER and other.kind == NUMBER:
        return token.value == other.value
    # Of several tunables in one declaration each gets its own.
    return (token.kind, token.text) == (other.kind, other.text) or (token.text, other.text) == (",", ";")


# ---- a canonical text with comments


class Layout:
    """The lines of a canonical text, and the comments of each."""

    def __init__(self, data, canonical):
        scanner = CommentScanner(data)
        self.data, self.source, self.comments = data, scanner.run(), scanner.comments
        self.text, self.tokens = canonical, Scanner(canonical).run()
        self.lines: List[List[int]] = [[] for _ in range(self.tokens[-1].line)]
        for number, token in enumerate(self.tokens[:-1]):
            self.lines[token.line - 1].append(number)
        of = Pairs(self.source, self.tokens).run().of
        # Of each token of the source, the one before it and the one behind it that the canonical text has.
        self.before = [None, *accumulate(of, lambda one, other: one if other is None else other)]
        self.after = list(accumulate(reversed(of), lambda one, other: one if other is None else other))[::-1]
        self.above: Dict[int, list] = {}  # of each line, from 0
        self.behind: Dict[int, list] = {}
        self.inside: Dict[int, list] = {}  # of each token those before it, with the blanks on both sides
        self.gaps = [self.gaps_of(number) for number in range(len(self.comments))]
        # Whether a line begins between a comment and the token before it, and whether one ends before the next token.
        fresh = self.spread(enumerate(self.comments), 0)
        last = self.spread(reversed(list(enumerate(self.comments))), 1)
        for number, comment in enumerate(self.comments):
            self.place(comment, number in fresh, number in last, *self.gaps[number])

    def spread(self, comments, side):
        """The comments that have a line's end on this side, and those beside them, up to the next token."""
        found, beside = set(), None
        for number, comment in comments:
            if b"\n" in self.gaps[number][side] or beside == comment.token:
                found.add(number)
                beside = comment.token
        return found

    def line_of(self, number):
        return self.tokens[number].line - 1

    def place(self, comment, is_fresh, is_last, left, right):
        text = self.data[comment.at : comment.end].rstrip(b" \t\r")
        before, after = self.before[comment.token], self.after[comment.token]
        stands_alone = is_last or self.tokens[after].kind == END or text.startswith(b"//")
        is_behind = before is not None and not is_fresh and self.parts(before, after)
        if is_behind:
            self.put_behind(self.line_of(before), text)
        elif stands_alone and (before is None or is_fresh or text.startswith(b"//")):
            self.above.setdefault(self.line_of(after), []).append(text)
        else:
            self.put_inside(after, left, text, right)

    def parts(self, before, after):
        """Whether a line of the canonical text ends between two tokens."""
        return self.line_of(before) != self.line_of(after) or self.tokens[after].kind == END

    def gaps_of(self, number):
        """What stands between a comment and the tokens or comments beside it."""
        comment = self.comments[number]
        begins = [one.at + len(one.text) for one in self.source[max(comment.token - 1, 0) : comment.token]]
        begins += [one.end for one in self.comments[max(number - 1, 0) : number]]
        ends = [self.source[comment.token].at] + [one.at for one in self.comments[number + 1 : number + 2]]
        return self.data[max(begins, default=0) : comment.at], self.data[comment.end : min(ends)]

    def put_behind(self, line, text):
        listed = self.behind.setdefault(line, [])
        if listed and listed[-1].startswith(b"//"):
            self.above.setdefault(line + 1, []).append(text)
        else:
            listed.append(text)

    def put_inside(self, after, left, text, right):
        """Beside a comment there is a blank where there was one, or where the two tokens have one between them."""
        token, before = self.tokens[after], self.tokens[after - 1] if after else None
        apart = before is not None and before.line == token.line and before.at + len(before.text) < token.at
        blanks = (b" " if apart or gap else b"" for gap in (left, right))
        self.inside.setdefault(after, []).append((text, *blanks))

    # ---- the text

    def render(self):
        found = []
        for line, numbers in enumerate(self.lines):
            shown = self.line(numbers) if numbers else b""
            indent = shown[: len(shown) - len(shown.lstrip())] + (INDENT.encode() if self.closes(numbers) else b"")
            found += [indent + text for text in self.above.get(line, ())]
            if numbers or line in self.behind:
                found.append(b" ".join([shown, *self.behind.get(line, ())]))
        return b"".join(line + b"\n" for line in found)

    def closes(self, numbers):
        return bool(numbers) and self.tokens[numbers[0]].text == "}"

    def line(self, numbers):
        """The tokens of a line with the comments between them."""
        found, end = b"", self.text.rfind(b"\n", 0, self.tokens[numbers[0]].at) + 1
        for number in numbers:
            token = self.tokens[number]
            gap, end = self.text[end : token.at], token.at + len(token.text)
            found += self.with_comments(gap, self.inside.get(number, ()), number == numbers[0])
            found += token.text.encode()
        return found

    @staticmethod
    def with_comments(gap, comments, is_first):
        """What stands before a token: its gap, or comments with their blanks, of which there is one between two."""
        if not comments:
            return gap
        found = gap if is_first else comments[0][1]
        for (text, _, right), (_, left, _) in zip(comments, [*comments[1:], (b"", b"", b"")]):
            found += text + (right or left)
        return found


def with_comments(data, canonical):
    """The canonical text of a program with the comments of its source; None where the two are of different programs."""
    try:
        return Layout(data, canonical).render()
    except (Misfit, Unread, IndexError):
        return None
