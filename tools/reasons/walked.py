"""The forms of a program that `sq plan` accepts, in the order in which they are found, with their loops and calls.

What is computed here is docs/LANGUAGE.md, section levels and children; a row is one time that a call is performed.
"""
from dataclasses import dataclass, field
from functools import cached_property
from math import prod
from typing import List, Optional

from plans import WIDTHS
from saying.forms import Form, argument, cut, extent_of, iterations, meet, value_of
from sqfiles.programs import Call, Local, Map, Tunable


@dataclass
class Row:
    """One time that a call is performed."""

    numbers: tuple  # of the variables of the maps round it, from the outermost on
    regions: list  # of each argument the caller's array, and for each dimension from where on and before where
    form: int  # that is called
    turn: Optional[tuple]  # of the spread map round it: its iterations, and which one this is


@dataclass
class Site:
    """A call of a form."""

    call: Call
    lower: bool
    callee: object  # the instance
    params: list
    around: Optional["Loop"] = None
    rows: List[Row] = field(default_factory=list)


@dataclass
class Loop:
    """A map of a form."""

    map: Map
    around: Optional["Loop"]
    body: list = field(default_factory=list)  # sites and loops
    counts: List[int] = field(default_factory=list)  # how many iterations, each time that it is begun

    @property
    def kind(self):
        return self.map.word.text

    @property
    def place(self):
        return self.map.word.place

    @cached_property
    def is_spread(self):
        lower = [site.lower for site in self.sites()]
        return self.kind != "mapseq" and any(lower) and all(lower) and self.spread_around() is None

    def sites(self):
        for one in self.body:
            if isinstance(one, Loop):
                yield from one.sites()
            else:
                yield one

    def spread_around(self):
        """The spread map in which this one stands."""
        return self.around and (self.around if self.around.is_spread else self.around.spread_around())

    def names(self):
        """The variables of the maps round a call in this one, from the outermost on."""
        before = self.around.names() if self.around else []
        return before + [range_.name.text for range_ in self.map.ranges]


class Found(Form):
    """A form with its number, that of its caller, which arguments are in place, and its statements."""

    def __init__(self, number, caller, in_place, instance, variant, extents):
        super().__init__(instance, variant, extents)
        self.number, self.caller, self.in_place = number, caller, in_place
        self.widths = {param.name.text: WIDTHS[param.elem.text] for param in variant.params}
        self.body, self.site = [], None  # the site is the call by which it is found

    @property
    def params(self):
        return self.variant.params

    def size(self, name):
        """The bytes of the buffer of an array."""
        return -(-self.widths[name] * prod(self.arrays[name]) // 8) * 8

    def local_names(self):
        return [one.name.text for one in self.variant.declared if isinstance(one, Local)]

    def loops(self):
        """In the order of the text."""
        stack = list(reversed(self.body))
        while stack:
            one = stack.pop()
            if isinstance(one, Loop):
                yield one
                stack += reversed(one.body)


class Walk:
    def __init__(self, program, mapping, machine):
        self.program, self.mapping = program, mapping
        self.depth = {level.name.text: depth for depth, level in enumerate(machine.levels)}
        self.forms, self.known = [], {}

    def run(self):
        entry = self.mapping.instance(self.mapping.entry.text)
        sizes = {size.name.text: size.value.value for size in self.mapping.sizes}
        params = self.variant(entry).params
        extents = [[extent_of(extent, sizes) for extent in param.extents] for param in params]
        self.add(None, None, entry, extents, [False] * len(params))
        for form in self.forms:
            self.form(form)
        return self.forms

    def variant(self, instance):
        return self.program.variant(instance.task.text, instance.variant.text)

    def level(self, form):
        return self.depth[form.instance.level.text]

    def add(self, caller, site, instance, extents, in_place):
        """The number of the form that this call reaches."""
        place = site and site.call.task.place
        key = (caller, place, instance.name.text, tuple(map(tuple, extents)), tuple(in_place))
        if key not in self.known:
            self.known[key] = len(self.forms)
            form = Found(len(self.forms), caller, in_place, instance, self.variant(instance), extents)
            form.site = site
            self.forms.append(form)
        return self.known[key]

    def form(self, form):
        cuts = {}
        for one in form.variant.declared:
            if isinstance(one, Local):
                form.arrays[one.name.text] = [value_of(dim, form) for dim in one.dims]
                form.widths[one.name.text] = WIDTHS[one.elem.text]
            elif not isinstance(one, Tunable):
                cuts[one.name.text] = cut(one, form)
        if form.variant.kind.text == "inner":
            form.body = [self.mirror(one, form, None) for one in form.variant.body]
            self.statements(form.body, form, cuts, (), None)

    def mirror(self, one, form, around):
        """A statement before anything of it is performed."""
        if isinstance(one, Call):
            callee = self.mapping.instance(form.instance.serves(one.task.text).text)
            lower = self.depth[callee.level.text] > self.level(form)
            return Site(one, lower, callee, self.variant(callee).params, around)
        loop = Loop(one, around)
        loop.body = [self.mirror(inside, form, loop) for inside in one.body]
        return loop

    def statements(self, body, form, cuts, numbers, turn):
        for one in body:
            if isinstance(one, Loop):
                self.loop(one, form, cuts, numbers, turn)
            else:
                self.call(one, form, cuts, numbers, turn)

    def loop(self, loop, form, cuts, before, turn):
        bounds = [max(value_of(range_.bound, form), 0) for range_ in loop.map.ranges]
        names, count = [range_.name.text for range_ in loop.map.ranges], prod(bounds)
        loop.counts.append(count)
        for number, numbers in enumerate(iterations(bounds) if count else ()):
            form.values.update(zip(names, numbers))
            own = (count, number) if loop.is_spread else turn
            self.statements(loop.body, form, cuts, before + numbers, own)
        for name in names:
            form.values.pop(name, None)

    def call(self, site, form, cuts, numbers, turn):
        regions = [argument(arg, form, cuts) for arg in site.call.args]
        extents = [[end - begin for begin, end in ranges] for _, ranges in regions]
        in_place = [not site.lower and self.is_in_place(site, regions, number) for number in range(len(regions))]
        called = self.add(form.number, site, site.callee, extents, in_place)
        site.rows.append(Row(numbers, regions, called, turn))

    def is_in_place(self, site, regions, number):
        if self.is_reduced(site, number):
            return False
        return not any(other != number and meets(site, regions, number, other) for other in range(len(regions)))

    def is_reduced(self, site, number):
        around = self.reductions.get(site.call.task.place)
        return around is not None and site.call.args[number].name.text == around

    @cached_property
    def reductions(self):
        """Of each call in a mapreduce, by its place, the array that is reduced into."""
        maps = [one for variant in self.program.variants for one in reducing(variant.body)]
        return {one.body[0].task.place: one.array.text for one in maps}


def reducing(body):
    for one in body:
        if isinstance(one, Map):
            if one.array:
                yield one
            yield from reducing(one.body)


def is_written(param):
    return param.mode.text != "in"


def meets(site, regions, one, other):
    """Whether two arguments share an element, and one of them is written."""
    written = is_written(site.params[one]) or is_written(site.params[other])
    return written and meet(regions[one], regions[other])
