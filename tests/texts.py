"""Programs, mappings, machines, plan files and data that the tables of this folder share."""
import os

TOP = os.path.dirname(os.path.dirname(os.path.realpath(__file__)))
MOST_NUMBER = 2**63 - 1

TWICE_LEAF = """void task twice::leaf(in int A[N], out int B[N]) {
  for (int i = 0; i < N; i++) {
    B[i] = A[i] + A[i];
  }
}
"""
TWICE_INNER = """void task twice::inner(in int A[N], out int B[N]) {
  tunable int U;
  blkset Ab = rchop(A, U);
  blkset Bb = rchop(B, U);
  mappar (int i = 0 to (N + U - 1) / U) {
    twice(Ab[i], Bb[i]);
  }
}
"""
TWICE = TWICE_INNER + TWICE_LEAF


def place(text, at):
    """Where a byte of a text stands, as lines name it."""
    text = text.encode() if isinstance(text, str) else text
    before = text[:at]
    return f"{before.count(10) + 1}:{at - before.rfind(10)}"


def place_of(text, word, nth=1):
    """Where a word stands in a text, the nth time."""
    at = -1
    for _ in range(nth):
        at = text.index(word, at + 1)
    return place(text, at)


class Padded:
    """A text with blanks behind it, of so many bytes, which are made when they are written."""

    def __init__(self, text, size):
        self.text = text.encode() if isinstance(text, str) else text
        self.size = size

    def write_to(self, file):
        file.write(self.text)
        left = self.size - len(self.text)
        while left > 0:
            file.write(b" " * min(left, 2**20))
            left -= 2**20

    def place_of_last(self):
        """Where its last byte stands."""
        return f"{self.text.count(10) + 1}:{self.size - self.text.rfind(10) - 1}"


def rounded(size):
    """What a buffer of so many bytes takes."""
    return (size + 7) // 8 * 8


def array_text(name, elem, extents, values):
    """An array as data files and standard output have it, one line a row."""
    head = f"array {name} {elem} " + "".join(f"[{extent}]" for extent in extents) + "\n"
    row = extents[-1]
    lines = (" ".join(map(str, values[at : at + row])) + "\n" for at in range(0, len(values), row))
    return (head + "".join(lines)).encode()


def machine(*capacities, children=2):
    """A machine of version 1 with levels m0, m1 and so on, each node with as many children."""
    between = f" children {children}; "
    levels = between.join(f"level m{k} {{ capacity {size}; }}" for k, size in enumerate(capacities))
    return f"machine 1; {levels}\n"


def twice_files(count=2, block=1, lower=True):
    """Doubling `count` numbers by blocks: on two levels, or on one where it isn't `lower`."""
    size = rounded(4 * count)
    level = "m1" if lower else "m0"
    return {
        "program": TWICE,
        "mapping": f"mapping 1; entry top(N = {count}); instance top = twice::inner @ m0 {{ tunable U = {block};"
        f" call twice -> low; }} instance low = twice::leaf @ {level} {{ }}\n",
        "machine": machine(2 * size, 2 * rounded(4 * block)) if lower else machine(2 * size),
        "data": array_text("A", "int", [count], list(range(1, count + 1))),
    }


def twice_output(count=2):
    return array_text("B", "int", [count], list(range(2, 2 * count + 1, 2)))


def leaf_files(program, sizes="", data=b"", tunables="", capacity=2**20, task="t"):
    """One leaf task on one memory."""
    return {
        "program": program,
        "mapping": f"mapping 1; entry top({sizes}); instance top = {task}::leaf @ m0 {{ {tunables} }}\n",
        "machine": machine(capacity),
        "data": data,
    }


def inner_files(program, sizes, data, tunables="", capacities=(64, 32), task="t", callee="t"):
    """One inner task at the root, whose calls go to a leaf at the next level."""
    return {
        "program": program,
        "mapping": f"mapping 1; entry top({sizes});"
        f" instance top = {task}::inner @ m0 {{ {tunables} call {callee} -> low; }}"
        f" instance low = {callee}::leaf @ m1 {{ }}\n",
        "machine": machine(*capacities),
        "data": data,
    }


def chain_files(length, program, data, sizes, level=lambda k: "m0", capacities=(64,)):
    """Instances i0, i1 and so on of a task t, each calling the next: `length` inner ones, and then a leaf."""
    inner = " ".join(f"instance i{k} = t::inner @ {level(k)} {{ call t -> i{k + 1}; }}" for k in range(length))
    return {
        "program": program,
        "mapping": f"mapping 1; entry i0({sizes}); {inner} instance i{length} = t::leaf @ {level(length)} {{ }}\n",
        "machine": machine(*capacities),
        "data": data,
    }


# ---- plan files


def plan_file(nodes, buffers, term, leaves=(), arrays=()):
    """A plan file of its lines, without their first words and their ends; a leaf is what stands behind the word."""
    lines = ["plan 1;\n"]
    for word, those in (("node", nodes), ("buffer", buffers)):
        lines += [f"{word} {it};\n" for it in those]
    lines += [f"leaf {it}" for it in leaves]
    lines += [f"array {it};\n" for it in arrays]
    return "".join([*lines, term])


def twice_plan():
    """Doubling ten numbers by blocks of four, on a memory of 80 bytes with two of 32 bytes below it."""
    with open(os.path.join(TOP, "examples/blocks/by-hand.plan")) as file:
        return file.read()


# ---- texts in one another

ADD_ONE = "void task t::leaf(inout int A[N]) {\n  A[0] += 1;\n}\n"
ONE = b"array A int [1]\n0\n"
# A loop of one turn; `#` is its number in a nest.
LOOP = "for (int i# = 0; i# < 1; i#++) "


def numbered(text, count):
    """A text so many times, with its numbers from 0 in place of `#`."""
    return "".join(text.replace("#", str(k)) for k in range(count))


def nested_value(opening, core, closing, count):
    """A leaf that assigns an expression in so many others."""
    text = f"void task t::leaf(inout int B[1]) {{\n  B[0] = {opening * count}{core}{closing * count};\n}}\n"
    return leaf_files(text, data=b"array B int [1]\n0\n")


def nested_statements(opening, closing, count):
    """A leaf with an assignment in so many statements."""
    text = f"void task t::leaf(out int B[1]) {{\n  {numbered(opening, count)}B[0] = 1;{closing * count}\n}}\n"
    return leaf_files(text)


def else_ifs(count):
    """A leaf with a chain of so many branches, of which the last `else` is taken."""
    chain = "if (0) B[0] = 2; else " * count
    return leaf_files(f"void task t::leaf(out int B[1]) {{\n  {chain}B[0] = 1;\n}}\n")


def nested_maps(count, turns=1):
    """A call in so many maps."""
    opened = numbered(f"mapseq (int i# = 0 to {turns}) {{ ", count)
    text = f"void task t::inner(inout int A[N]) {{\n  {opened}t(A);{' }' * count}\n}}\n{ADD_ONE}"
    return inner_files(text, "N = 1", ONE)
