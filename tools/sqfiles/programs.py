"""Programs as trees. Names, numbers and signs in them are tokens, so each knows its place."""
import sys
from dataclasses import dataclass, field
from typing import List, Optional, Union

from sqfiles.tokens import ANY_NUMBER, NUMBER, OPERATOR, Reader, Token

WORDS = frozenset(
    (
        "void task inner leaf in out inout byte int long tunable local blkset rchop ichop mappar mapseq mapreduce "
        "reduce to if else for min max len"
    ).split()
)
MODES, ELEMENTS = ("in", "out", "inout"), ("byte", "int", "long")
# The levels of operators in leaf code, the loosest first, and those in constants.
LEVELS = [line.split() for line in "||;&&;|;^;&;== !=;< <= > >=;<< >>;+ -;* / %".split(";")]
LEVEL_OF = {sign: level for level, signs in enumerate(LEVELS) for sign in signs}
CONSTANT_LEVEL_OF = {sign: LEVEL_OF[sign] for sign in "+ - * / %".split()}


# ---- expressions


@dataclass
class Use:
    """A name, with indices in leaf code."""

    name: Token
    indices: list = field(default_factory=list)


@dataclass
class Length:
    list: Token


@dataclass
class Unary:
    sign: Token
    operand: "Expression"


@dataclass
class Chain:
    """Operands with the operators of one level between them, computed from the left."""

    operands: List["Expression"]
    signs: List[Token]


@dataclass
class Choice:
    """`min(a, b)` or `max(a, b)`."""

    word: Token
    left: "Expression"
    right: "Expression"


Expression = Union[Token, Use, Length, Unary, Chain, Choice]  # a token is a number


# ---- declarations and statements


@dataclass
class Param:
    mode: Token
    elem: Token
    name: Token
    extents: List[Token]


@dataclass
class Tunable:
    name: Token
    is_list: bool


@dataclass
class Local:
    elem: Token
    name: Token
    dims: List[Expression]


@dataclass
class Blocks:
    """A block set: `rchop` of an array with sizes, or `ichop` with the names of two lists."""

    name: Token
    how: Token
    array: Token
    sizes: List[Expression]
    lists: List[Token]


@dataclass
class Arg:
    name: Token
    indices: List[Expression]


@dataclass
class Call:
    task: Token
    args: List[Arg]


@dataclass
class Range:
    name: Token
    bound: Expression


@dataclass
class Map:
    word: Token
    ranges: List[Range]
    operator: Optional[Token]  # of mapreduce, as is the array
    array: Optional[Token]
    body: List[Union["Map", Call]]


@dataclass
class Assign:
    target: Use
    sign: Token
    value: Expression


@dataclass
class If:
    word: Token
    condition: Expression
    then: list
    other: list


@dataclass
class For:
    word: Token
    name: Token
    first: Expression
    compared: Token
    bound: Expression
    stepped: Token
    body: list


@dataclass
class Variant:
    name: Token
    kind: Token  # inner or leaf
    params: List[Param]
    declared: List[Union[Tunable, Local, Blocks]]
    body: list
    end: Token  # the brace that closes it

    def array(self, name):
        """The parameter or local of this name."""
        arrays = self.params + [one for one in self.declared if isinstance(one, Local)]
        return next((one for one in arrays if one.name.text == name), None)

    def blocks(self, name):
        return next((one for one in self.declared if isinstance(one, Blocks) and one.name.text == name), None)


@dataclass
class Program:
    variants: List[Variant]

    def of_task(self, name):
        return [variant for variant in self.variants if variant.name.text == name]

    def variant(self, name, kind):
        return next((variant for variant in self.of_task(name) if variant.kind.text == kind), None)

    def around(self, place):
        """The variant in which this place is."""
        return next((variant for variant in reversed(self.variants) if variant.name.place <= place), None)


class ProgramReader(Reader):
    def __init__(self, data):
        super().__init__(data, WORDS)

    def program(self):
        variants = []
        while self.takes("void", "task"):
            if self.tokens[self.at - 1].text == "void":
                self.need("task")
            variants.append(self.variant())
        self.end()
        return Program(variants)

    def variant(self):
        name = self.name()
        self.need("::")
        kind = self.need("inner", "leaf")
        self.need_open("(")
        params = self.list(self.param)
        self.close(")")
        self.need_open("{")
        inner = kind.text == "inner"
        declared = self.declarations(inner)
        body = self.statements(self.statement if inner else self.leaf_statement)
        return Variant(name, kind, params, declared, body, self.tokens[self.at - 1])

    def param(self):
        mode = self.need(*MODES)
        return Param(mode, self.need(*ELEMENTS), self.name(), self.dims(self.extent))

    def extent(self):
        self.wanted[ANY_NUMBER] = None
        return self.take() if self.sees_name() or self.next.kind == NUMBER else self.fail()

    def dims(self, item):
        """One to three items in brackets."""
        found = []
        while len(found) < 3 and (self.opens("[") if found else self.need_open("[")):
            found.append(item())
            self.close("]")
        return found

    # ---- declarations

    def declarations(self, inner):
        found = []
        while True:
            if self.takes("tunable"):
                found += self.tunables(inner)
            elif self.takes("local"):
                found.append(Local(self.need(*ELEMENTS), self.name(), self.dims(self.constant)))
                self.need(";")
            elif inner and self.takes("blkset"):
                found.append(self.block_set())
            else:
                return found

    def tunables(self, inner):
        self.need("int")
        first = self.name()
        if inner and self.opens("["):
            self.close("]")
            self.need(";")
            return [Tunable(first, True)]
        names = [first]
        while self.takes(","):
            names.append(self.name())
        self.need(";")
        return [Tunable(name, False) for name in names]

    def block_set(self):
        name = self.name()
        self.need("=")
        how = self.need("rchop", "ichop")
        self.need_open("(")
        array = self.name()
        self.need(",")
        sizes, lists = [], []
        if how.text == "rchop":
            sizes = self.list(self.constant)
        else:
            lists.append(self.name())
            self.need(",")
            lists.append(self.name())
        self.close(")")
        self.need(";")
        return Blocks(name, how, array, sizes, lists)

    # ---- statements of inner variants

    def statements(self, statement):
        """Statements up to the brace that closes them."""
        found = []
        while True:
            one = statement()
            if one is None:
                self.close("}")
                return found
            found.append(one)

    def statement(self):
        word = self.takes("mappar", "mapseq", "mapreduce")
        if word:
            return self.map(word)
        if not self.sees_name():
            return None
        return self.call()

    def map(self, word):
        self.need_open("(")
        ranges = self.list(self.range)
        self.close(")")
        if word.text != "mapreduce":
            self.need_open("{")
            return Map(word, ranges, None, None, self.statements(self.statement))
        self.need("reduce")
        self.need_open("(")
        operator = self.need("+", "*", "min", "max", "&", "|", "^")
        self.need(",")
        array = self.name()
        self.close(")")
        self.need_open("{")
        call = self.call()
        self.close("}")
        return Map(word, ranges, operator, array, [call])

    def range(self):
        self.need("int")
        name = self.name()
        self.need("=")
        self.number(0)
        self.need("to")
        return Range(name, self.constant())

    def call(self):
        task = self.name()
        self.need_open("(")
        args = self.list(self.arg)
        self.close(")")
        self.need(";")
        return Call(task, args)

    def arg(self):
        return Arg(self.name(), self.indices(self.constant))

    def indices(self, item):
        found = []
        while self.opens("["):
            found.append(item())
            self.close("]")
        return found

    # ---- statements of leaves

    def leaf_statement(self):
        word = self.takes("if", "for")
        if word:
            return self.if_(word) if word.text == "if" else self.for_(word)
        if not self.sees_name():
            return None
        target = Use(self.name())
        self.sees("[") or self.fail()
        target.indices = self.indices(self.expression)
        sign = self.need("=", "+=", "-=", "*=")
        value = self.expression()
        self.need(";")
        return Assign(target, sign, value)

    def if_(self, word):
        self.need_open("(")
        condition = self.expression()
        self.close(")")
        then = self.body()
        return If(word, condition, then, self.body() if self.takes("else") else [])

    def for_(self, word):
        self.need_open("(")
        self.need("int")
        name = self.name()
        self.need("=")
        first = self.expression()
        self.need(";")
        compared = self.name()
        self.need("<")
        bound = self.expression()
        self.need(";")
        stepped = self.name()
        self.need("++")
        self.close(")")
        return For(word, name, first, compared, bound, stepped, self.body())

    def body(self):
        if self.opens("{"):
            return self.statements(self.leaf_statement)
        first = [self.sees("if"), self.sees("for"), self.sees_name()]
        if not any(first):
            self.fail()
        self.open(self.next)
        found = [self.leaf_statement()]
        self.levels -= 1
        return found

    # ---- expressions

    def expression(self, least=0, levels=None):
        """Of operators of at least this level; `levels` are those of constants where it is one."""
        levels = LEVEL_OF if levels is None else levels
        left = self.unary(levels)
        while self.operator(levels, least):
            level = levels[self.next.text]
            chain = Chain([left], [])
            while self.operator(levels, least) and levels[self.next.text] == level:
                chain.signs.append(self.take())
                chain.operands.append(self.expression(level + 1, levels))
            left = chain
        return left

    def constant(self):
        return self.expression(0, CONSTANT_LEVEL_OF)

    def operator(self, levels, least):
        self.wanted[OPERATOR] = None
        return levels.get(self.next.text, -1) >= least

    def unary(self, levels):
        constant = levels is CONSTANT_LEVEL_OF
        sign = self.takes("-") if constant else self.takes("-", "~", "!")
        if sign:
            self.open(sign)
            operand = self.unary(levels)
            self.levels -= 1
            return Unary(sign, operand)
        return self.primary(levels, constant)

    def primary(self, levels, constant):
        self.wanted[ANY_NUMBER] = None
        if self.next.kind == NUMBER:
            return self.take()
        if self.sees_name():
            return Use(self.name(), [] if constant else self.indices(self.expression))
        if self.opens("("):
            inside = self.expression(0, levels)
            self.close(")")
            return inside
        return self.length() if constant else self.choice()

    def length(self):
        self.need("len")
        self.need_open("(")
        name = self.name()
        self.close(")")
        return Length(name)

    def choice(self):
        word = self.need("min", "max")
        self.need_open("(")
        left = self.expression()
        self.need(",")
        right = self.expression()
        self.close(")")
        return Choice(word, left, right)


def read_program(data):
    # An expression of 64 levels, with an operator of each kind in each, takes over 800 calls.
    sys.setrecursionlimit(max(sys.getrecursionlimit(), 4000))
    return ProgramReader(data).program()
