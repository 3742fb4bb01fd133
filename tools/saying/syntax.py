"""What may stand at the place of a fault of text, and hints for the usual slips."""
from sqfiles.mappings import read_costs, read_machine, read_mapping
from sqfiles.planfiles import LARGEST_PLAN, read_plan_file
from sqfiles.programs import LEVEL_OF, WORDS, read_program
from sqfiles.tokens import END, END_OF_FILE, LARGEST_FILE, LARGEST_NUMBER, NAME, NUMBER, OPERATOR, WORD, Unread, tokens

from saying.snippets import span_of

READERS = {
    "program": read_program,
    "mapping": read_mapping,
    "machine": read_machine,
    "cost": read_costs,
    "plan": read_plan_file,
}
FIRST_WORDS = {
    "mapping": "a mapping",
    "machine": "a machine",
    "cost": "a cost file",
    "plan": "a plan file",
    "array": "a data file",
    "void": "a program",
    "task": "a program",
}
KILO, MEGA, GIGA = 1 << 10, 1 << 20, 1 << 30
HEXADECIMAL = "0123456789abcdefABCDEF"
SUFFIXES = {"k": KILO, "kb": KILO, "kib": KILO, "m": MEGA, "mb": MEGA, "mib": MEGA, "g": GIGA, "gb": GIGA, "gib": GIGA}

# Slips by the phase, the variant's kind, what is wanted, and the token that stands there; None where any will do.
SLIPS = [
    ("program", "leaf", "`}`", ("blkset",), "block sets stand in inner variants alone"),
    (
        "program", None, "`}`", ("tunable", "local", "blkset"),
        "declarations stand before the first statement of their variant",
    ),
    (
        "program", "inner", "`mappar`", ("for",),
        "the loops of an inner variant are `mappar`, `mapseq` and `mapreduce`; `for` stands in a leaf",
    ),
    ("program", "inner", "`mappar`", ("if", "else"), "an inner variant has no `if`; it stands in a leaf"),
    (
        "program", "leaf", "`for`", ("mappar", "mapseq", "mapreduce"),
        "maps stand in inner variants; the loop of a leaf is `for`",
    ),
    (
        "program", "leaf", "`for`", ("int", "long", "byte"),
        "a leaf has no variables but counters; `local int x[1];` before the first statement is an array "
        "of one element",
    ),
    ("program", "leaf", "`+=`", ("++",), "write `+= 1`"),
    (
        "program", "leaf", "`+=`", ("/", "%", "&", "|", "^", "<<", ">>"),
        "the signs of an assignment are `=`, `+=`, `-=` and `*=`; write `A[i] = A[i] / 2;`",
    ),
    (
        "program", "leaf", "`[`", ("=", "+=", "-=", "*=", "++"),
        "values lie in arrays: `y[0] += 1;`, with `local int y[1];` before the first statement where it "
        "is the leaf's own",
    ),
    ("program", "leaf", "`[`", ("(",), "a leaf calls nothing; calls stand in inner variants"),
    ("program", "leaf", "`[`", (";",), "a statement of a leaf is an assignment to an element, an `if` or a `for`"),
    ("program", None, "`[`", (")", ","), "a parameter is an array, a single number one of one element: `in int A[1]`"),
    ("program", None, NAME, ("]",), "an extent is a size name or a number: `A[N]`"),
    ("program", "leaf", NAME, ("++", "--"), "a loop steps by 1, with `++` behind its counter"),
    ("program", None, "`len`", ("min", "max"), "`min` and `max` stand in leaves; constants have `+ - * / %` and `len`"),
    ("program", None, END_OF_FILE, ("}",), "this `}` closes nothing"),
    (
        "program", None, END_OF_FILE, None,
        "a program is tasks: `task t::inner(..) { .. }` and `task t::leaf(..) { .. }`",
    ),
    ("program", "leaf", "`<`", ("<=",), "a loop ends before its bound: write `i < e + 1` in place of `i <= e`"),
    (
        "program", "leaf", "`<`", (">", ">=", "!=", "=="),
        "a loop counts up to before its bound, by `<`; to go down, compute the index: `A[N - 1 - i]`",
    ),
    ("program", "leaf", "`++`", None, "a loop steps by 1, with `++` behind its counter"),
    ("program", None, "`0`", None, "each range begins at 0: `int i = 0 to e`; add the beginning where i is used"),
    (
        "program", None, "`to`", (";", "<", "<="),
        "the head of a map is `(int i = 0 to e)`, of several ranges `(int i = 0 to e, int j = 0 to f)`",
    ),
    (
        "program", "inner", "`(`", ("[", "=", "+=", "-=", "*="),
        "an inner variant only calls tasks; a leaf computes elements",
    ),
    (
        "program", "inner", "`;`", ("=",),
        "the value of a tunable stands in the mapping: `tunable U = 4;` in an instance of this variant",
    ),
    (
        "program", "leaf", "`;`", ("=",),
        "the value of a tunable stands in the mapping: `tunable U = 4;` in an instance of this variant",
    ),
    ("program", "leaf", "`,`", ("[",), "a leaf has no lists; they stand in inner variants"),
    ("program", None, "`]`", (",",), "each index has brackets of its own: `A[i][j]`"),
    (
        "program", None, "`int`", ("float", "double", "char", "short", "unsigned", "bool", "long", "byte"),
        "elements are byte, int or long; a tunable and a variable are `int`",
    ),
    (
        "program", None, "`inout`", ("byte", "int", "long"),
        "`in`, `out` or `inout` stands before the type of a parameter",
    ),
    ("program", None, "`::`", None, "a task is written by its variants: `task t::inner(..)` and `task t::leaf(..)`"),
    ("mapping", None, "`;`", ("|",), "alternatives are for `sq tune` alone"),
    ("mapping", None, "`->`", None, "`call TASK -> INSTANCE;`"),
    ("mapping", None, "`@`", None, "`instance NAME = TASK::inner @ LEVEL { .. }`"),
    (
        "mapping", None, "`tunable`", ("spread",),
        "`spread` stands in mappings of version 2: `mapping 2;` at the beginning",
    ),
    ("mapping", None, "`tunable`", None, "an item is `tunable NAME = VALUE;` or `call TASK -> INSTANCE;`"),
    (
        "machine", None, "`children`", ("level",),
        "between two levels stands how many nodes each node above has: `children 2;`",
    ),
    ("machine", None, END_OF_FILE, ("}",), "this `}` closes nothing"),
    ("plan", None, "`+`", None, "a place is a buffer and a byte of it: `2+16`"),
    ("plan", None, "`leaf`", ("inner",), "leaves alone stand in a plan file; its events are what inner variants do"),
    ("plan", None, END_OF_FILE, None, "a plan file has one term: several events stand in `seq { .. }` or `par { .. }`"),
    ("machine", None, "`levels`", None, "version 2 names its levels first: `levels host, core;`"),
]


def read_again(phase, data, command):
    """What the reader of this phase says of the bytes: the fault of text, or None."""
    try:
        read_mapping(data, True) if phase == "mapping" and command == "tune" else READERS[phase](data)
    except Unread as fault:
        return fault
    return None


def expected(fault):
    """What may stand there, as one line."""
    *others, last = fault.wanted
    return f"here may stand {', '.join(others)} or {last}" if others else f"here may stand {last}"


class Slip:
    """A fault of Syntax with the tokens round it."""

    def __init__(self, phase, data, fault):
        largest = LARGEST_PLAN if phase == "plan" else LARGEST_FILE
        self.phase, self.fault, self.tokens = phase, fault, tokens(data, largest)
        self.at = next(at for at, token in enumerate(self.tokens) if token.place == fault.place)
        self.token = self.tokens[self.at]
        self.before = self.tokens[self.at - 1] if self.at else None
        heads = [two.text for one, two in zip(self.tokens, self.tokens[1 : self.at]) if one.text == "::"]
        self.kind = heads[-1] if heads and phase == "program" else None

    def wants(self, text):
        return text in self.fault.wanted

    def spans(self):
        """Places beside the fault's own: where something is missing, or open."""
        if self.misses_semicolon():
            return [span_of(self.before, "`;` is missing behind this")]
        if self.token.kind == END and self.open_bracket():
            return [span_of(self.open_bracket(), "this is not closed")]
        return []

    def misses_semicolon(self):
        return self.before and self.wants("`;`") and self.before.line < self.token.line

    def open_bracket(self):
        stack = []
        for token in self.tokens[: self.at]:
            if token.text in ("(", "[", "{"):
                stack.append(token)
            elif token.text in (")", "]", "}") and stack:
                stack.pop()
        return stack[-1] if stack else None

    def hint(self):
        found = (rule(self) for rule in RULES)
        return next((hint for hint in found if hint), None) or language_word(self)


def other_file(slip):
    told = FIRST_WORDS.get(slip.token.text)
    if slip.at == 0 and told:
        order = "the files stand in the order PROG MAP MACH, then DATA or COST"
        return f"this file is {told}; {'`exec` takes PLAN DATA' if slip.phase == 'plan' else order}"
    return None


def number_forms(slip):
    """`64K` and `0x200`."""
    before, token = slip.before, slip.token
    if not before or before.kind != NUMBER or token.kind != WORD or before.at + len(before.text) != token.at:
        return None
    text = before.text + token.text
    digits = token.text[1:]
    if before.text == "0" and token.text[0] in "xX" and digits and all(c in HEXADECIMAL for c in digits):
        return f"numbers are decimal: {text} is {int(text, 16)}"
    if token.text.lower() in SUFFIXES:
        return f"numbers are digits alone: {text} is {before.value * SUFFIXES[token.text.lower()]}"
    return f"numbers are decimal digits alone, not {text}"


def list_of_its_own(slip):
    if slip.phase != "program" or slip.kind != "inner":
        return None
    behind_list = slip.token.text == "," and slip.before.text == "]" and slip.tokens[slip.at - 2].text == "["
    in_row = slip.token.text == "[" and slip.wants("`,`") and slip.wants("`;`")
    hint = "each list has a `tunable` of its own: `tunable int S[];`, then `tunable int E[];`"
    return hint if behind_list or in_row else None


def typed_tunable(slip):
    if slip.phase == "mapping" and slip.before and slip.before.text == "int" and slip.token.kind == WORD:
        return "the mapping gives tunables without a type: `tunable U = 4;`"
    return None


def by_table(slip):
    for phase, kind, wanted, texts, hint in SLIPS:
        if slip.phase == phase and kind in (None, slip.kind) and slip.wants(wanted):
            if texts is None or slip.token.text in texts:
                return hint
    return None


def fourth_extent(slip):
    if slip.phase != "program" or slip.token.text != "[" or slip.at < 2 or slip.before.text != "]":
        return None
    return "an array has at most three dimensions" if slip.tokens[slip.at - 2].text != "[" else None


def constant_signs(slip):
    if slip.kind == "inner" and slip.token.text in LEVEL_OF and slip.wants(f"{OPERATOR}"):
        return "sizes, bounds and indices of an inner variant have the operators `+ - * / %` alone"
    return None


def language_word(slip):
    if slip.phase == "program" and slip.wants(NAME) and slip.token.text in WORDS:
        return f"`{slip.token.text}` is a word of the language, and no name"
    return None


RULES = (other_file, number_forms, fourth_extent, list_of_its_own, typed_tunable, by_table, constant_signs)

# ---- bytes

BYTES = {
    ord("."): "'.': numbers are whole",
    ord('"'): "'\"': there are no strings",
    ord("'"): "''': there are no characters and no strings",
    ord("?"): "'?': there is no choice by `?`; a leaf has `if`",
    ord(":"): "a single ':'; between task and kind stand two, `t::inner`",
    ord("#"): "'#': a comment begins with `//`",
    0: "a byte 0: this may be a text of UTF-16, or no text at all",
}


def bad_byte(data, at):
    if data.startswith(b"\xef\xbb\xbf") and at == 0:
        return "a byte order mark: save the file as UTF-8 without one"
    if at >= len(data):
        return None
    byte = data[at]
    if byte >= 128:
        return "letters of other alphabets stand in comments alone"
    if byte in BYTES:
        return BYTES[byte]
    return f"'{chr(byte)}': no token begins with it" if byte > 32 else f"a byte {byte}: no token begins with it"


# ---- other faults of tokens


def open_comment(data, at, _):
    if data[at : at + 3] == b"/*/":
        return "`/*/` only begins a comment: the `*` of its end is another one"
    return "behind this no `*/` follows"


def too_big(data, at, _):
    end = at
    while end < len(data) and data[end] in b"0123456789":
        end += 1
    digits = data[at:end].decode().lstrip("0")
    over = f", {int(digits) - LARGEST_NUMBER} less than this" if len(digits) < 30 else ""
    return f"the largest number is {LARGEST_NUMBER}, 2^63 - 1{over}"


def too_deep(_, __, phase):
    if phase == "plan":
        return "level 1025, and 1024 may be; in a leaf's task level 65 of 64"
    return "level 65, and 64 may be"


LABELS = {"OpenComment": open_comment, "NumberTooBig": too_big, "TooDeep": too_deep}
