"""Values of LimitCalls, LimitAccess and LimitDepth: the forms of a program are walked up to the first that is too
much."""
from collections import Counter
from math import prod

from reasons.walked import Loop, Walk
from saying.forms import Stop, iterations, value_of
from saying.names import Missing, Told, counted, there
from saying.snippets import span_of

MOST_FORMS, MOST_USES, MOST_DEPTH = 4096, 1 << 20, 64
MOST_ROWS = 300_000


class Limited(Walk):
    """Stops at the first fault of a limit."""

    def __init__(self, files):
        super().__init__(there(files.program), there(files.mapping), there(files.machine))
        self.rows = 0

    def add(self, caller, site, instance, extents, in_place):
        number = super().add(caller, site, instance, extents, in_place)
        if number == MOST_FORMS:
            many = Counter(form.instance.name.text for form in self.forms).most_common(4)
            listed = ", ".join(f"{count} of `{name}`" for name, count in many)
            told = f"with this call there are {MOST_FORMS + 1} forms, and {MOST_FORMS} may be"
            raise Stop("LimitCalls", site.call.task, Told(told, [], [f"the most of them are {listed}"]))
        return number

    def loop(self, loop, form, cuts, before, turn):
        if loop.around is None:
            begun, passed = uses(loop, form)
            if begun + passed > MOST_USES:
                parts = f"{counted(begun, 'iteration')} and {counted(passed, 'argument')}"
                told = f"{begun + passed} uses, and {MOST_USES} may be: {parts}"
                raise Stop("LimitAccess", loop.map.word, Told(told, [], [f"here {form.known()}"]))
        super().loop(loop, form, cuts, before, turn)

    def call(self, site, form, cuts, numbers, turn):
        self.rows += 1
        if self.rows > MOST_ROWS:
            raise Missing
        chain = list(self.chain(form))
        maps = [maps_round(site), *(maps_round(one.site) for one in chain if one.site)]
        if sum(maps) > MOST_DEPTH or len(chain) > MOST_DEPTH:
            raise Stop("LimitDepth", site.call.task, self.too_deep(chain, maps))
        super().call(site, form, cuts, numbers, turn)

    def chain(self, form):
        """A form and its callers, up to the entry."""
        while form is not None:
            yield form
            form = None if form.caller is None else self.forms[form.caller]

    def too_deep(self, chain, maps):
        if sum(maps) <= MOST_DEPTH:
            return Told(f"{len(chain)} forms stand round this call, and {MOST_DEPTH} may")
        parts = ", ".join(f"{count} of {form.instance.name.text}" for form, count in zip(chain, maps) if count)
        form = chain[0]
        spans = [span_of(form.site.call.task, f"{form.instance.name.text} is called here")] if form.site else []
        return Told(f"{sum(maps)} maps stand round this call, and {MOST_DEPTH} may: {parts}", spans)


def maps_round(site):
    count, around = 0, site.around
    while around is not None:
        count, around = count + 1, around.around
    return count


def uses(loop, form):
    """How many iterations begin in a map and in those inside, and how many arguments their calls have."""
    bounds = [max(value_of(range_.bound, form), 0) for range_ in loop.map.ranges]
    passed = sum(len(one.call.args) for one in loop.body if not isinstance(one, Loop))
    inner = [one for one in loop.body if isinstance(one, Loop)]
    begun, given = prod(bounds), prod(bounds) * passed
    names = [range_.name.text for range_ in loop.map.ranges]
    for numbers in iterations(bounds) if inner and begun else ():
        form.values.update(zip(names, numbers))
        for one in inner:
            more = uses(one, form)
            begun, given = begun + more[0], given + more[1]
        if begun + given > 4 * MOST_USES:
            break
    for name in names:
        form.values.pop(name, None)
    return begun, given


def values_at(fault, files):
    try:
        Limited(files).run()
    except Stop as stop:
        if (stop.code, stop.token.place) == (fault.code, fault.place):
            return stop.told
    raise Missing
