"""Goes through the sizes, blocks and calls of a program under its mapping, up to the first that is wrong, for the
values there. What the line of sq says counts: where another fault is met here, nothing is told."""
from math import prod

from sqfiles.programs import Call, Chain, Length, Local, Map, Tunable, Unary, Use

from saying.names import Missing, Told, head_of, there
from saying.snippets import span_of

MOST_STEPS = 200_000
MOST_EXTENT, MOST_ELEMENTS = 1 << 24, 1 << 26
LEAST, MOST = -(1 << 63), (1 << 63) - 1


class Stop(Exception):
    """The first fault: its code, its token, and what is told of it."""

    def __init__(self, code, token, told):
        super().__init__(code)
        self.code, self.token, self.told = code, token, told


class Form:
    """An instance with the extents of its arrays and the values of its names."""

    def __init__(self, instance, variant, extents):
        self.instance, self.variant = instance, variant
        self.arrays = {param.name.text: shape for param, shape in zip(variant.params, extents)}
        self.values, self.lists = {}, {}
        for param, shape in zip(variant.params, extents):
            self.values.update({name.text: size for name, size in zip(param.extents, shape) if name.kind == "word"})
        for setting in instance.tunables:
            kind = self.lists if isinstance(setting.value, list) else self.values
            kind[setting.name.text] = setting.value

    def known(self):
        """The values of the names, as they are told."""
        lists = [f"{name} = {listed}" for name, listed in self.lists.items()]
        return ", ".join([f"{name} = {value}" for name, value in self.values.items()] + lists)


# ---- constants


def value_of(expression, form):
    if isinstance(expression, Use):
        return there(form.values.get(expression.name.text))
    if isinstance(expression, Length):
        return len(there(form.lists.get(expression.list.text)))
    if isinstance(expression, Unary):
        return in_range(-value_of(expression.operand, form), expression.sign, form)
    if isinstance(expression, Chain):
        return chain_value(expression, form)
    return expression.value


def in_range(value, token, form):
    if not LEAST <= value <= MOST:
        raise Stop("Overflow", token, Told(f"the result is {value}", [], [f"here {form.known()}"]))
    return value


def chain_value(chain, form):
    value = value_of(chain.operands[0], form)
    for sign, operand in zip(chain.signs, chain.operands[1:]):
        right = value_of(operand, form)
        value = in_range(step(sign, value, right, form), sign, form)
    return value


def step(sign, left, right, form):
    if sign.text in "+-*":
        return left + right if sign.text == "+" else left - right if sign.text == "-" else left * right
    if right == 0:
        raise Stop("DivZero", sign, Told(f"this is {left} {sign.text} 0", [], [f"here {form.known()}"]))
    quotient = abs(left) // abs(right) * (1 if (left < 0) == (right < 0) else -1)
    return quotient if sign.text == "/" else left - quotient * right


# ---- blocks


def cut(blocks, form):
    """What a block set is: for each dimension that is cut, its blocks as (begin, end)."""
    extents = there(form.arrays.get(blocks.array.text))
    if blocks.how.text == "rchop":
        sizes = [value_of(size, form) for size in blocks.sizes]
        if min(sizes) < 1:
            told = Told(f"this cuts blocks of {' by '.join(map(str, sizes))}", [], [f"here {form.known()}"])
            raise Stop("BadChop", blocks.name, told)
        return [Even(size, extent) for size, extent in zip(sizes, extents)]
    begins, ends = (there(form.lists.get(token.text)) for token in blocks.lists)
    first, second = (token.text for token in blocks.lists)
    if len(begins) != len(ends):
        told = f"{first} has {len(begins)} numbers, and {second} has {len(ends)}"
        raise Stop("BadChop", blocks.name, Told(told, [], [f"here {form.known()}"]))
    for number, (begin, end) in enumerate(zip(begins, ends)):
        if not 0 <= begin < end <= extents[0]:
            told = f"block {number} has the rows from {begin} on and before {end}, of {extents[0]} rows"
            raise Stop("BadChop", blocks.name, Told(told, [], [f"here {form.known()}"]))
    return [list(zip(begins, ends))]


class Even:
    """The blocks of one size along a dimension."""

    def __init__(self, size, extent):
        self.size, self.extent = size, extent

    def __len__(self):
        return -(-self.extent // self.size)

    def __getitem__(self, number):
        return number * self.size, min((number + 1) * self.size, self.extent)


def argument(arg, form, cuts):
    """The elements that an argument has: of which array, and for each dimension from where on and before where."""
    if not arg.indices:
        return arg.name.text, [(0, extent) for extent in there(form.arrays.get(arg.name.text))]
    dimensions, indices = there(cuts.get(arg.name.text)), [value_of(index, form) for index in arg.indices]
    if any(not 0 <= index < len(blocks) for index, blocks in zip(indices, dimensions)):
        named = arg.name.text + "".join(f"[{index}]" for index in indices)
        count = " by ".join(str(len(blocks)) for blocks in dimensions)
        few = "s, from 0 on" if count != "1" else ", 0"
        told = Told(f"this is {named}, and {arg.name.text} has {count} block{few}", [], [f"here {form.known()}"])
        raise Stop("BlockIndex", arg.name, told)
    found = [blocks[index] for index, blocks in zip(indices, dimensions)]
    array = there(form.variant.blocks(arg.name.text)).array.text
    return array, found + [(0, extent) for extent in there(form.arrays.get(array))[len(found) :]]


def within_limits(name, extents, form):
    if not all(1 <= extent <= MOST_EXTENT for extent in extents) or prod(extents) > MOST_ELEMENTS:
        many = "extents are" if len(extents) > 1 else "extent is"
        told = Told(f"its {many} {' by '.join(map(str, extents))}", [], [f"here {form.known()}"])
        raise Stop("LimitArray", name, told)


def extent_of(extent, sizes):
    return there(sizes.get(extent.text)) if extent.kind == "word" else extent.value


# ---- the walk


def iterations(bounds):
    """The numbers of the variables of a map, the last one varying fastest."""
    if not bounds:
        yield ()
        return
    for first in range(bounds[0]):
        for rest in iterations(bounds[1:]):
            yield (first, *rest)


class Walk:
    def __init__(self, files):
        self.program, self.mapping = there(files.program), there(files.mapping)
        self.forms, self.seen, self.steps = [], set(), 0
        self.bounds = {}  # of each map that is begun, by its place: the bounds that it has had

    def run(self):
        entry = there(self.mapping.instance(self.mapping.entry.text))
        variant = self.variant(entry)
        sizes = {size.name.text: size.value.value for size in self.mapping.sizes}
        self.add(entry, [[extent_of(one, sizes) for one in param.extents] for param in variant.params])
        for param in variant.params:
            within_limits(param.name, self.forms[0].arrays[param.name.text], self.forms[0])
        for form in self.forms:
            self.form(form)

    def step(self):
        self.steps += 1
        if self.steps > MOST_STEPS:
            raise Missing

    def variant(self, instance):
        return there(self.program.variant(instance.task.text, instance.variant.text))

    def add(self, instance, extents):
        key = (instance.name.text, tuple(map(tuple, extents)))
        if key not in self.seen:
            self.seen.add(key)
            self.forms.append(Form(instance, self.variant(instance), extents))

    def form(self, form):
        cuts = {}
        for one in form.variant.declared:
            if isinstance(one, Local):
                self.local(one, form)
            elif not isinstance(one, Tunable):
                cuts[one.name.text] = cut(one, form)
        if form.variant.kind.text == "inner":
            self.statements(form.variant.body, form, cuts)

    def local(self, one, form):
        extents = [value_of(dim, form) for dim in one.dims]
        within_limits(one.name, extents, form)
        form.arrays[one.name.text] = extents

    def statements(self, body, form, cuts):
        for one in body:
            self.step()
            if isinstance(one, Call):
                self.call(one, form, cuts)
            elif isinstance(one, Map):
                self.map(one, form, cuts)

    def map(self, one, form, cuts):
        bounds = [value_of(range_.bound, form) for range_ in one.ranges]
        names = [range_.name.text for range_ in one.ranges]
        self.bounds.setdefault(one.word.place, set()).add(tuple(bounds))
        for numbers in iterations(bounds) if min(bounds) > 0 else ():
            self.step()
            form.values.update(zip(names, numbers))
            self.statements(one.body, form, cuts)
        for name in names:
            form.values.pop(name, None)

    def call(self, call, form, cuts):
        regions = [argument(arg, form, cuts) for arg in call.args]
        extents = [[end - begin for begin, end in ranges] for _, ranges in regions]
        callee = there(self.mapping.instance(there(form.instance.serves(call.task.text)).text))
        bound = {}  # a size name with its value and the parameter and argument that gave it
        for param, arg, shape in zip(self.variant(callee).params, call.args, extents):
            self.bind(param, arg, shape, bound, form)
        self.alias(call, self.variant(callee).params, regions, form)
        self.add(callee, extents)

    def bind(self, param, arg, shape, bound, form):
        for name, extent in zip(param.extents, shape):
            value, other, first = bound.get(name.text, (None, None, None))
            if name.kind == "number" and name.value != extent:
                spans = [span_of(name, f"`{head_of(param)}` wants {name.value}")]
                raise Stop("Shape", arg.name, Told(f"has {extent}", spans, [f"here {form.known()}"]))
            if value is not None and value != extent:
                spans = [span_of(first.name, f"{name.text} is {value} by this"), span_of(name, f"`{head_of(param)}`")]
                if other is not param:
                    spans.append(span_of(other.name, f"`{head_of(other)}`"))
                raise Stop("Shape", arg.name, Told(f"{name.text} is {extent} by this", spans, [f"here {form.known()}"]))
            if name.kind == "word":
                bound.setdefault(name.text, (extent, param, arg))

    def alias(self, call, params, regions, form):
        """Whether two arguments that are written share an element."""
        written = [number for number, param in enumerate(params) if param.mode.text != "in"]
        for later in written:
            for earlier in written:
                if earlier < later and meet(regions[earlier], regions[later]):
                    both = [call.args[number].name for number in (earlier, later)]
                    told = [f"has {region_text(regions[number])}" for number in (earlier, later)]
                    raise Stop("Alias", both[1], Told(told[1], [span_of(both[0], told[0])], [f"here {form.known()}"]))


def meet(one, other):
    return one[0] == other[0] and all(a < d and c < b for (a, b), (c, d) in zip(one[1], other[1]))


def region_text(region):
    return region[0] + "".join(f"[{begin}..{end}]" for begin, end in region[1])


def values_at(fault, files):
    """What the values say of a fault of resolve."""
    try:
        Walk(files).run()
    except Stop as stop:
        if (stop.code, stop.token.place) == (fault.code, fault.place):
            return stop.told
    raise Missing


def variables_of(map_, numbers, files):
    """The variables of a map in iterations of these numbers, as `i = 1, j = 0`; None where its bounds change."""
    walk = Walk(files)
    try:
        walk.run()
    except (Stop, Missing):
        return None
    found = walk.bounds.get(map_.word.place, ())
    if len(found) != 1 or len(map_.ranges) < 2:
        return None
    return [variables(map_, number, next(iter(found))) for number in numbers]


def variables(map_, number, bounds):
    told = []
    for range_, bound in zip(reversed(map_.ranges), reversed(bounds)):
        number, value = divmod(number, bound)
        told.insert(0, f"{range_.name.text} = {value}")
    return ", ".join(told)
