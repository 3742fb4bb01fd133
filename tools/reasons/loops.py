"""Which arguments leave which loops and which loops overlap their transfers, and why the others don't.

A reason is a text, and none stands for a condition that holds. The conditions are those of docs/LANGUAGE.md.
"""
from dataclasses import dataclass, field
from typing import Dict, List, Optional

from saying.forms import meet, region_text
from saying.names import counted

from reasons import memories
from reasons.walked import Loop, is_written, meets


@dataclass
class Verdict:
    """What is said of a loop."""

    loop: Loop
    leaving: List[str] = field(default_factory=list)  # parameters whose transfers stand outside of it
    staying: Dict[str, str] = field(default_factory=dict)  # of the others the reason
    plain: Optional[str] = None  # why it is no plain loop
    overlap: Optional[str] = None  # why it doesn't overlap


class Loops:
    """The loops of all forms."""

    def __init__(self, forms, machine):
        self.forms, self.memories = forms, memories.memories_of(machine)
        self.nodes = memories.runs_at(forms, self.memories)
        self.verdicts = [[Verdict(loop) for loop in form.loops()] for form in forms]
        self.by_loop = {id(verdict.loop): verdict for listed in self.verdicts for verdict in listed}
        self.leaves = [[0] * len(form.params) for form in forms]
        self.hoists, self.overlaps = [], []  # as lines of a report
        for form in forms:
            self.hoist(form)
        self.rooms = memories.rooms_of(forms, self.leaves, self.memories, self.nodes)
        self.taken = set()
        for form in forms:
            self.overlap(form)

    # ---- arguments that leave loops

    def hoist(self, form):
        for verdict in self.verdicts[form.number]:
            verdict.plain = plain_fault(verdict.loop)
        for loop in form.loops():
            nest = nest_of(loop)
            if nest and (loop.around is None or nest_of(loop.around) is None):
                self.leave(form, nest)

    def leave(self, form, nest):
        """The loops of a nest, from the inside: an argument leaves one where it leaves those inside of it."""
        site, loops = nest
        times, called = [1] * len(site.rows), site.rows[0].form
        leaves = self.leaves[called] = [0] * len(site.params)
        for inside, loop in enumerate(loops):
            times, verdict = sums(loop.counts, times), self.by_loop[id(loop)]
            for number, param in enumerate(site.params):
                fault = inside_fault(loops, leaves[number])
                if leaves[number] == inside:
                    fault = stay_fault(site, number, times, loops[0].names())
                if fault:
                    verdict.staying[param.name.text] = fault
                else:
                    leaves[number] = inside + 1
                    verdict.leaving.append(param.name.text)
        for number, left in enumerate(leaves):
            if left:
                place = "%d:%d" % loops[left - 1].place
                self.hoists.append((place, form.instance.name.text, site.params[number].name.text))

    # ---- loops whose transfers overlap

    def overlap(self, form):
        for verdict in self.verdicts[form.number]:
            verdict.overlap = self.form_fault(verdict.loop, form)
            if verdict.overlap is None:
                called = verdict.loop.body[0].rows[0].form
                verdict.overlap = self.room_fault(called)
                if verdict.overlap is None:
                    self.taken.add(called)
                    self.overlaps.append(("%d:%d" % verdict.loop.place, form.instance.name.text))

    def form_fault(self, loop, form):
        """Why a loop may not overlap, whatever room there is."""
        if loop.kind == "mapreduce":
            return "only `mapseq` and `mappar` do"
        fault = alone_fault(loop) or site_fault(loop.body[0], loop.names())
        if fault:
            return fault
        return self.spread_fault(loop, form) if loop.kind == "mappar" else self.turns_fault(loop)

    def spread_fault(self, loop, form):
        if not loop.is_spread:
            return "it stands in the spread %s at %d:%d" % (loop.spread_around().kind, *loop.spread_around().place)
        children = max(len(self.memories[node].below) for node in self.nodes[form.number])
        least = min(loop.counts)
        few = "1 child" if children == 1 else f"{children} children"
        return f"{counted(least, 'iteration')}, {few}" if least <= children else None

    def turns_fault(self, loop):
        if min(loop.counts) < 2:
            return counted(min(loop.counts), "iteration")
        site = loop.body[0]
        left, start = self.leaves[site.rows[0].form], 0
        for count in loop.counts:
            rows, start = site.rows[start : start + count], start + count
            fault = ahead_fault(site, left, rows, loop.names())
            if fault:
                return fault
        return None

    def room_fault(self, called):
        """What the second set of buffers for the calls of a form lacks."""
        full = memories.too_full(self.forms, self.rooms, self.taken | {called})
        if full is None:
            return None
        (form, end), least = full, self.rooms[full[0].number].least
        moved = zip(self.forms[called].params, self.leaves[called])
        names = ", ".join(param.name.text for param, left in moved if not left)
        told = f"a second set of {names} takes {counted(self.rooms[called].more, 'byte')} more at {least.name}"
        others = len(self.taken & {other.number for other in self.stack(form)} - {called})
        before = f" beside {counted(others, 'loop')} taken before" if others else ""
        return f"{told}{before}: {end} of {least.capacity}"

    def stack(self, form):
        """The forms whose buffers stand below those of a form at its level, and this one."""
        while form is not None:
            yield form
            form = self.forms[form.caller] if form.site and not form.site.lower else None


# ---- plain loops


def alone_fault(loop):
    """Why the body of a loop isn't one call."""
    if len(loop.body) != 1:
        return f"its body has {counted(len(loop.body), 'statement')}" if loop.body else "its body is empty"
    one = loop.body[0]
    return "its body is the %s at %d:%d" % (one.kind, *one.place) if isinstance(one, Loop) else None


def site_fault(site, names):
    """Why a call isn't a lower one of one form."""
    if not site.lower:
        return f"{site.callee.name.text} runs at the level of its caller"
    return form_fault(site, names) if site.rows else "it has no iteration"


def form_fault(site, names):
    first = site.rows[0]
    other = next((row for row in site.rows if row.form != first.form), None)
    if other is None:
        return None
    shapes = [[[end - begin for begin, end in ranges] for _, ranges in row.regions] for row in (first, other)]
    number = next(number for number, (one, two) in enumerate(zip(*shapes)) if one != two)
    one, two = ("".join(f"[{extent}]" for extent in shape[number]) for shape in shapes)
    before, after = apart(names, first, other)
    count = len({row.form for row in site.rows})
    told = "two forms" if count == 2 else f"{count} forms"
    return f"{told}: {site.params[number].name.text} is {one} at {before}, and {two} at {after}"


def apart(names, one, other):
    """The variables of two rows, as far as they differ."""
    pairs = [(name, *numbers) for name, *numbers in zip(names, one.numbers, other.numbers) if numbers[0] != numbers[1]]
    return [", ".join(f"{pair[0]} = {pair[1 + which]}" for pair in pairs) for which in (0, 1)]


def plain_fault(loop):
    """Why a loop is no plain one."""
    if loop.kind != "mapseq":
        return "no mapseq"
    inside = loop.body[0] if len(loop.body) == 1 else None
    if inside is None or isinstance(inside, Loop) and inside.kind != "mapseq":
        return alone_fault(loop)
    fault = site_fault(inside, loop.names()) if not isinstance(inside, Loop) else plain_fault(inside)
    if fault:
        return fault if not isinstance(inside, Loop) else "of the mapseq at %d:%d: %s" % (*inside.place, fault)
    return "it has no iteration" if min(loop.counts, default=0) < 1 else None


def nest_of(loop):
    """The call of a plain loop, and the loops round it up to this one, from the inside; None where it isn't plain."""
    if plain_fault(loop):
        return None
    inside = loop.body[0]
    if not isinstance(inside, Loop):
        return inside, [loop]
    site, loops = nest_of(inside)
    return site, loops + [loop]


def sums(counts, times):
    """How many rows there are each time that a loop of these counts is begun, out of those in each iteration."""
    found, start = [], 0
    for count in counts:
        found.append(sum(times[start : start + count]))
        start += count
    return found


def inside_fault(loops, left):
    return "it stays inside the mapseq at %d:%d" % loops[left].place


def stay_fault(site, number, times, names):
    """Why an argument isn't the same block at each time of a loop, apart from the others."""
    start = 0
    for size in times:
        rows, start = site.rows[start : start + size], start + size
        for row in rows:
            fault = moved_fault(number, rows[0], row, names) or shared_fault(site, number, row)
            if fault:
                return fault
    return None


def moved_fault(number, first, row, names):
    if row.regions[number] == first.regions[number]:
        return None
    one, two = (region_text(each.regions[number]) for each in (first, row))
    before, after = apart(names, first, row)
    return f"{one} at {before}, and {two} at {after}"


def shared_fault(site, number, row):
    others = (other for other in range(len(row.regions)) if other != number and meets(site, row.regions, number, other))
    other = next(others, None)
    if other is None:
        return None
    which = [number, other] if is_written(site.params[number]) else [other, number]
    return f"it shares elements with {site.params[other].name.text}, and {site.params[which[0]].name.text} is written"


# ---- iterations in turn


def ahead_fault(site, left, rows, names):
    """Why what an iteration writes is in the way of what comes in for one of the two behind it."""
    for number, row in enumerate(rows):
        for later in rows[number + 1 : number + 3]:
            fault = clear_fault(site, left, row, later, names)
            if fault:
                return fault
    return None


def clear_fault(site, left, row, later, names):
    for one, param in enumerate(site.params):
        for other, after in enumerate(site.params):
            written = is_written(param) and not left[one] and not left[other]
            if written and meet(row.regions[one], later.regions[other]):
                first, second = region_text(row.regions[one]), region_text(later.regions[other])
                here, there = apart(names, row, later)
                written = f"{first}, written as {param.name.text} at {here}"
                return f"{written}, meets {second} of {after.name.text} at {there}"
    return None
