"""The tokens of a text, and a reader that remembers what may stand at the token it has come to."""
from dataclasses import dataclass, field
from typing import List

LARGEST_FILE = 1 << 20
LARGEST_NUMBER = (1 << 63) - 1
BLANKS = b" \t\r\n"
LETTERS = b"ABCDEFGHIJKLMNOPQRSTUVWXYZabcdefghijklmnopqrstuvwxyz_"
DIGITS = b"0123456789"
SIGNS = (
    ":: <= >= == != << >> && || ++ += -= *= -> ( ) [ ] { } , ; = + - * / % & | ^ ~ ! < > @"
).split()  # the longer ones first
SIGN_BYTES = [sign.encode() for sign in SIGNS]

WORD, NUMBER, SIGN, END = "word", "number", "sign", "end"


@dataclass(frozen=True)
class Token:
    """Lines and columns count from 1, columns in bytes, and `at` is its first byte in the file."""

    kind: str
    text: str
    line: int
    column: int
    at: int

    @property
    def place(self):
        return self.line, self.column

    @property
    def value(self):
        return int(self.text)


class Unread(Exception):
    """A text that isn't of its grammar: the code, the place, and what may stand there (none where tokens are wrong)."""

    def __init__(self, code, line=None, column=None, wanted=(), before=None):
        super().__init__(f"{code} {line}:{column}" if line else code)
        self.code, self.line, self.column, self.wanted = code, line, column, list(wanted)
        self.before = before  # the token before the place

    @property
    def place(self):
        return (self.line, self.column) if self.line else None


@dataclass
class Scanner:
    """Goes through the bytes of a file."""

    data: bytes
    at: int = 0
    line: int = 1
    begin: int = 0  # of the line
    found: List[Token] = field(default_factory=list)
    largest: int = LARGEST_FILE

    def unread(self, code):
        return Unread(code, self.line, self.at - self.begin + 1)

    def run(self):
        if len(self.data) > self.largest:
            raise Unread("LimitFile")
        while self.at < len(self.data):
            self.step()
        self.add(END, b"")
        return self.found

    def step(self):
        data, at = self.data, self.at
        if data[at] in BLANKS:
            self.pass_to(at + 1)
        elif data.startswith(b"//", at):
            end = data.find(b"\n", at)
            self.pass_to(len(data) if end < 0 else end)
        elif data.startswith(b"/*", at):
            end = data.find(b"*/", at + 2)
            if end < 0:
                raise self.unread("OpenComment")
            self.pass_to(end + 2)
        else:
            self.token()

    def pass_to(self, end):
        ends = self.data.count(b"\n", self.at, end)
        if ends:
            self.line += ends
            self.begin = self.data.rfind(b"\n", self.at, end) + 1
        self.at = end

    def token(self):
        first = self.data[self.at]
        if first in LETTERS:
            self.add(WORD, self.while_in(LETTERS + DIGITS))
        elif first in DIGITS:
            digits = self.while_in(DIGITS)
            significant = digits.lstrip(b"0")
            if len(significant) > 19 or int(significant or b"0") > LARGEST_NUMBER:
                raise self.unread("NumberTooBig")
            self.add(NUMBER, digits)
        else:
            sign = next((sign for sign in SIGN_BYTES if self.data.startswith(sign, self.at)), None)
            if sign is None:
                raise self.unread("BadByte")
            self.add(SIGN, sign)

    def while_in(self, allowed):
        end = self.at
        while end < len(self.data) and self.data[end] in allowed:
            end += 1
        return self.data[self.at : end]

    def add(self, kind, text):
        self.found.append(Token(kind, text.decode(), self.line, self.at - self.begin + 1, self.at))
        self.at += len(text)


def tokens(data, largest=LARGEST_FILE):
    """The tokens of the bytes of a file, and one of the kind END behind them."""
    return Scanner(data, largest=largest).run()


def token_at(data, line, column):
    """The token that begins at this place; None where none does, or where the tokens before it are wrong."""
    scanner = Scanner(data)
    try:
        while scanner.at < len(data) and not (scanner.found and scanner.found[-1].place >= (line, column)):
            scanner.step()
    except Unread:
        pass
    return next((token for token in reversed(scanner.found) if token.place == (line, column)), None)


NAME, ANY_NUMBER, END_OF_FILE, OPERATOR = "a name", "a number", "the end of the file", "an operator"
MOST_LEVELS = 64


class Reader:
    """The tokens one after another. Each question that is asked of the next one is kept in `wanted` until it is taken,
    so where none fits, `wanted` has all that may stand there."""

    largest, most_levels = LARGEST_FILE, MOST_LEVELS

    def __init__(self, data, reserved=frozenset()):
        self.tokens, self.at, self.reserved = tokens(data, self.largest), 0, reserved
        self.wanted, self.levels = {}, 0

    @property
    def next(self):
        return self.tokens[self.at]

    def sees(self, text):
        self.wanted[f"`{text}`"] = None
        return self.next.text == text and self.next.kind != END

    def sees_name(self):
        self.wanted[NAME] = None
        return self.next.kind == WORD and self.next.text not in self.reserved

    def take(self):
        token = self.next
        self.at += 1
        self.wanted = {}
        return token

    def takes(self, *texts):
        """The next token where it is one of these, and then takes it."""
        seen = [self.sees(text) for text in texts]
        return self.take() if any(seen) else None

    def need(self, *texts):
        return self.takes(*texts) or self.fail()

    def name(self):
        return self.take() if self.sees_name() else self.fail()

    def number(self, *values):
        """A number; one of these values, where there are any."""
        for value in values:
            self.wanted[f"`{value}`"] = None
        if not values:
            self.wanted[ANY_NUMBER] = None
        fits = self.next.kind == NUMBER and (not values or self.next.value in values)
        return self.take() if fits else self.fail()

    def end(self):
        self.wanted[END_OF_FILE] = None
        if self.next.kind != END:
            self.fail()

    def fail(self):
        before = self.tokens[self.at - 1] if self.at else None
        raise Unread("Syntax", *self.next.place, self.wanted, before)

    def open(self, token):
        """A level that this token opens."""
        self.levels += 1
        if self.levels > self.most_levels:
            raise Unread("TooDeep", *token.place)

    def opens(self, text):
        token = self.takes(text)
        if token:
            self.open(token)
        return token

    def need_open(self, text):
        return self.opens(text) or self.fail()

    def close(self, text):
        self.levels -= 1
        return self.need(text)

    def list(self, item):
        """One item or more, with commas between them."""
        found = [item()]
        while self.takes(","):
            found.append(item())
        return found
