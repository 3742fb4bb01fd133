"""The grammar of plan files: whether a text is of it, and what may stand where it isn't. tools/pictures/plans.py has
what they say."""
from sqfiles.programs import ELEMENTS, MODES, ProgramReader
from sqfiles.tokens import ANY_NUMBER, NAME, NUMBER, WORD

LARGEST_PLAN = 1 << 24
MOST_PLAN_LEVELS, MOST_TASK_LEVELS = 1024, 64
EVENTS = ("copy", "fill", "acc", "run")
OPERATORS = ("+", "*", "min", "max", "&", "|", "^")


class PlanReader(ProgramReader):
    largest, most_levels = LARGEST_PLAN, MOST_PLAN_LEVELS

    def plan(self):
        self.need("plan")
        self.number(1)
        self.need(";")
        for word, line in (("node", self.node), ("buffer", self.buffer), ("leaf", self.leaf), ("array", self.array)):
            while self.takes(word):
                line()
        self.term()
        self.end()

    def word(self):
        """A name, also a word of the language."""
        self.wanted[NAME] = None
        return self.take() if self.next.kind == WORD else self.fail()

    def some(self, opening, closing, item):
        """A list in brackets that may be empty."""
        self.need_open(opening)
        if not self.sees(closing):
            self.list(item)
        self.close(closing)

    def numbers(self):
        self.some("[", "]", self.number)

    def value(self):
        """A number, with a sign or not, or `lowest`."""
        if not self.takes("lowest"):
            self.takes("-")
            self.wanted[ANY_NUMBER] = None
            self.take() if self.next.kind == NUMBER else self.fail()

    # ---- lines

    def node(self):
        for _ in range(4):
            self.number()
        self.need(";")

    def buffer(self):
        for _ in range(3):
            self.number()
        self.word()
        self.word()
        self.need(";")

    def leaf(self):
        self.word()
        self.some("(", ")", self.binding)
        around, self.levels, self.most_levels = self.levels, 0, MOST_TASK_LEVELS
        if self.need("void", "task").text == "void":
            self.need("task")
        self.leaf_variant()
        self.levels, self.most_levels = around, MOST_PLAN_LEVELS

    def binding(self):
        self.word()
        self.need("=")
        self.value()

    def leaf_variant(self):
        self.name()
        self.need("::")
        self.need("leaf")
        self.need_open("(")
        self.list(self.param)
        self.close(")")
        self.need_open("{")
        self.declarations(False)
        self.statements(self.leaf_statement)

    def array(self):
        self.need(*MODES)
        self.need(*ELEMENTS)
        self.word()
        self.numbers()
        self.number()
        self.need(";")

    # ---- the term

    def term(self):
        """One term; the parts that are open stand in a list, since they may be a thousand."""
        open_parts = []
        while True:
            word = self.takes("seq", "par", "at", *EVENTS)
            if word and word.text in EVENTS:
                getattr(self, word.text)()
            elif word:
                self.begin(word)
                open_parts.append(word.text)
                continue
            else:
                # An `at` has one term inside, which is there: behind it stands its brace.
                self.close("}") if open_parts and open_parts.pop() != "at" else self.fail()
            while open_parts[-1:] == ["at"]:
                open_parts.pop()
                self.close("}")
            if not open_parts:
                return

    def begin(self, word):
        if word.text == "at":
            self.number()
            self.numbers()
        self.need_open("{")

    def slot(self):
        self.number()
        self.need("+")
        self.number()

    def copy(self):
        self.slot()
        self.slot()
        self.number()
        self.need(";")

    def fill(self):
        self.slot()
        self.need(*ELEMENTS)
        self.number()
        self.value()
        self.need(";")

    def acc(self):
        self.need(*OPERATORS)
        self.need(*ELEMENTS)
        self.copy()

    def run(self):
        self.number()
        self.some("(", ")", self.view)
        self.numbers()
        self.need(";")

    def view(self):
        self.slot()
        self.need(*ELEMENTS)
        self.numbers()
        self.numbers()


def read_plan_file(data):
    """Raises Unread where the text is of no plan file."""
    PlanReader(data).plan()
