"""The values of a trap: the program is run once more on one flat memory, up to its first trap, as `sq eval` does it.

What the line of sq says counts: where another trap is met here, nothing is told. Long runs are given up.
"""
from math import prod

from sqfiles.programs import Assign, Call, Chain, Choice, If, Local, Map, Tunable, Unary, Use
from sqfiles.tokens import Token

from saying.forms import Form, argument, cut, extent_of, iterations, value_of
from saying.names import Missing, Told, there
from saying.values import block_text

MOST_STEPS = 1_000_000
BITS = {"byte": (8, False), "int": (32, True), "long": (64, True)}


class Trap(Exception):
    def __init__(self, code, token, told):
        super().__init__(code)
        self.code, self.token, self.told, self.path = code, token, told, ()


def cut_to(number, bits, signed):
    """The one value of so many bits that differs by a multiple of 2 to their number."""
    number &= (1 << bits) - 1
    return number - (1 << bits) if signed and number >> (bits - 1) else number


def wrapped(number):
    return cut_to(number, 64, True)


class Array:
    def __init__(self, elem, extents, values):
        self.elem, self.extents, self.values = elem, extents, values

    def at(self, indices):
        place = 0
        for extent, index in zip(self.extents, indices):
            place = place * extent + index
        return place

    def rows(self, ranges):
        """The places at which the rows of a block begin, and their length."""
        begin, end = ranges[-1]
        for numbers in iterations([stop - start for start, stop in ranges[:-1]]):
            yield self.at([start + number for (start, _), number in zip(ranges, numbers)] + [begin]), end - begin

    def block(self, ranges):
        values = [value for start, size in self.rows(ranges) for value in self.values[start : start + size]]
        return Array(self.elem, [end - begin for begin, end in ranges], values)

    def put(self, ranges, block):
        done = 0
        for start, size in self.rows(ranges):
            self.values[start : start + size] = block.values[done : done + size]
            done += size


def zeros(elem, extents):
    return Array(elem, extents, [0] * prod(extents))


# ---- leaf code

COMPARED = {
    "==": lambda a, b: a == b, "!=": lambda a, b: a != b, "<": lambda a, b: a < b, "<=": lambda a, b: a <= b,
    ">": lambda a, b: a > b, ">=": lambda a, b: a >= b,
}
COMPUTED = {
    "+": lambda a, b: a + b, "-": lambda a, b: a - b, "*": lambda a, b: a * b,
    "&": lambda a, b: a & b, "|": lambda a, b: a | b, "^": lambda a, b: a ^ b,
    "<<": lambda a, b: a << (b % 64), ">>": lambda a, b: a >> (b % 64), "min": min, "max": max,
}


class Leaf:
    def __init__(self, form, arrays, flat):
        self.form, self.arrays, self.flat, self.counters = form, arrays, flat, {}

    def run(self):
        self.statements(self.form.variant.body)

    def known(self):
        told = [f"{name} = {value}" for name, value in self.counters.items()] + [self.form.known()]
        told = ", ".join(one for one in told if one)
        return [f"here {told}"] if told else []

    def statements(self, body):
        for one in body:
            self.flat.step()
            if isinstance(one, Assign):
                self.assign(one)
            elif isinstance(one, If):
                self.statements(one.then if self.value(one.condition) else one.other)
            else:
                first, bound = self.value(one.first), self.value(one.bound)
                for number in range(first, bound):
                    self.counters[one.name.text] = number
                    self.flat.step()
                    self.statements(one.body)
                self.counters.pop(one.name.text, None)

    def assign(self, one):
        array, place = self.element(one.target)
        value, sign = self.value(one.value), one.sign.text
        if sign != "=":
            value = COMPUTED[sign[0]](array.values[place], value)
        array.values[place] = cut_to(value, *BITS[array.elem])

    def element(self, use):
        """The array of a name with indices, and the place in it."""
        array, name = there(self.arrays.get(use.name.text)), use.name.text
        indices = [self.value(index) for index in use.indices]
        if not all(0 <= index < extent for index, extent in zip(indices, array.extents)):
            named = name + "".join(f"[{index}]" for index in indices)
            count = " by ".join(map(str, array.extents))
            has = f"{count} element{'' if count == '1' else 's'}, from 0 on"
            raise Trap("Index", use.name, Told(f"this is {named}, and {name} has {has}", [], self.known()))
        return array, array.at(indices)

    def value(self, one):
        self.flat.step()
        if isinstance(one, Token):
            return one.value
        if isinstance(one, Use):
            return self.name(one)
        if isinstance(one, Unary):
            return self.unary(one)
        if isinstance(one, Choice):
            return COMPUTED[one.word.text](self.value(one.left), self.value(one.right))
        return self.chain(one)

    def name(self, use):
        if use.indices:
            array, place = self.element(use)
            return array.values[place]
        found = self.counters.get(use.name.text)
        return there(self.form.values.get(use.name.text)) if found is None else found

    def unary(self, one):
        value, sign = self.value(one.operand), one.sign.text
        return wrapped(-value) if sign == "-" else ~value if sign == "~" else int(value == 0)

    def chain(self, chain):
        assert isinstance(chain, Chain)
        left = self.value(chain.operands[0])
        for sign, operand in zip(chain.signs, chain.operands[1:]):
            if sign.text in ("&&", "||"):
                decided = (left != 0) == (sign.text == "||")
                left = int(left != 0) if decided else int(self.value(operand) != 0)
            else:
                left = self.operation(sign, left, self.value(operand))
        return left

    def operation(self, sign, left, right):
        if sign.text in COMPARED:
            return int(COMPARED[sign.text](left, right))
        if sign.text not in ("/", "%"):
            return wrapped(COMPUTED[sign.text](left, right))
        if right == 0:
            raise Trap("DivZero", sign, Told(f"this is {left} {sign.text} 0", [], self.known()))
        quotient = abs(left) // abs(right) * (1 if (left < 0) == (right < 0) else -1)
        return wrapped(quotient if sign.text == "/" else left - quotient * right)


# ---- tasks


def identity(operator, elem):
    bits, signed = BITS[elem]
    least, most = (-(1 << (bits - 1)), (1 << (bits - 1)) - 1) if signed else (0, (1 << bits) - 1)
    return {"+": 0, "*": 1, "min": most, "max": least, "&": cut_to(-1, bits, signed), "|": 0, "^": 0}[operator]


class Flat:
    def __init__(self, files):
        self.program, self.mapping, self.steps = there(files.program), there(files.mapping), 0
        self.words = there(files.data("data")).split()

    def step(self):
        self.steps += 1
        if self.steps > MOST_STEPS:
            raise Missing

    def variant(self, instance):
        return there(self.program.variant(instance.task.text, instance.variant.text))

    def run(self):
        entry = there(self.mapping.instance(self.mapping.entry.text))
        sizes = {size.name.text: size.value.value for size in self.mapping.sizes}
        arrays = []
        for param in self.variant(entry).params:
            extents = [extent_of(one, sizes) for one in param.extents]
            arrays.append(zeros(param.elem.text, extents) if param.mode.text == "out" else self.read(param, extents))
        self.perform(entry, arrays, ())
        return arrays

    def read(self, param, extents):
        """The next array of the data, behind the four words of its head."""
        count = prod(extents)
        values, self.words = [int(word) for word in self.words[4 : 4 + count]], self.words[4 + count :]
        return Array(param.elem.text, extents, values)

    def perform(self, instance, arrays, path):
        variant = self.variant(instance)
        form, cuts = Form(instance, variant, [array.extents for array in arrays]), {}
        named = {param.name.text: array for param, array in zip(variant.params, arrays)}
        for one in variant.declared:
            if isinstance(one, Local):
                extents = [value_of(dim, form) for dim in one.dims]
                form.arrays[one.name.text], named[one.name.text] = extents, zeros(one.elem.text, extents)
            elif not isinstance(one, Tunable):
                cuts[one.name.text] = cut(one, form)
        if variant.kind.text == "inner":
            self.statements(variant.body, form, named, cuts, path)
            return
        try:
            Leaf(form, named, self).run()
        except Trap as trap:
            trap.path = path
            raise

    def statements(self, body, form, arrays, cuts, path):
        for one in body:
            self.step()
            if isinstance(one, Call):
                self.call(one, form, arrays, cuts, path)
            else:
                self.map(one, form, arrays, cuts, path)

    def map(self, one, form, arrays, cuts, path):
        assert isinstance(one, Map)
        bounds = [value_of(range_.bound, form) for range_ in one.ranges]
        names = [range_.name.text for range_ in one.ranges]
        for number, numbers in enumerate(iterations(bounds) if min(bounds) > 0 else ()):
            form.values.update(zip(names, numbers))
            if one.array:
                self.reduce(one, form, arrays, cuts, path + (number,))
            else:
                self.statements(one.body, form, arrays, cuts, path + (number,))
        for name in names:
            form.values.pop(name, None)

    def reduce(self, one, form, arrays, cuts, path):
        """An iteration of a mapreduce, whose result is combined into the array."""
        array, operator = arrays[one.array.text], one.operator.text
        before = array.values
        array.values = [identity(operator, array.elem)] * len(before)
        self.statements(one.body, form, arrays, cuts, path)
        combined = (COMPUTED[operator](left, right) for left, right in zip(before, array.values))
        array.values = [cut_to(number, *BITS[array.elem]) for number in combined]

    def call(self, call, form, arrays, cuts, path):
        callee = there(self.mapping.instance(there(form.instance.serves(call.task.text)).text))
        params = self.variant(callee).params
        regions = [argument(arg, form, cuts) for arg in call.args]
        blocks = [arrays[name].block(ranges) for name, ranges in regions]
        for param, block in zip(params, blocks):
            if param.mode.text == "out":
                block.values = [0] * len(block.values)
        try:
            self.perform(callee, blocks, path)
        except Trap as trap:
            self.tell_block(trap, form, callee, params, regions)
            raise
        for param, block, (name, ranges) in zip(params, blocks, regions):
            if param.mode.text != "in":
                arrays[name].put(ranges, block)

    def tell_block(self, trap, form, callee, params, regions):
        """Which block of its caller's array the array of an Index is."""
        if trap.code != "Index" or self.variant(callee).kind.text != "leaf":
            return
        for param, (name, ranges) in zip(params, regions):
            whole = ranges == [(0, extent) for extent in form.arrays[name]]
            if param.name.text == trap.token.text and not whole:
                whose = f"{form.instance.name.text}'s {name}"
                trap.told.notes.append(f"{param.name.text} is {block_text(ranges)} of {whose}")


def values_at(fault, files):
    """What the values say of a trap."""
    try:
        Flat(files).run()
    except Trap as trap:
        path = "/".join(map(str, trap.path)) or "-"
        if [trap.code, trap.token.place, path] == [fault.code, fault.place, fault.args[0]]:
            return trap.told
    raise Missing
