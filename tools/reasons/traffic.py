"""What a plan file carries over each edge, by the buffers that rows come from and go to."""
from dataclasses import dataclass


@dataclass
class Carried:
    """The rows between two buffers in one direction."""

    first: int  # the level at which they begin, and the one at which they end
    last: int
    lower: tuple  # the instance and array of the buffer at the lower level; of one level, of the callee
    upper: tuple
    kind: str
    bytes: int = 0
    rows: int = 0
    least: int = 0
    most: int = 0

    def add(self, size):
        self.least = min(self.least, size) if self.rows else size
        self.bytes, self.rows, self.most = self.bytes + size, self.rows + 1, max(self.most, size)


def carried_by(plan):
    """What is carried between two buffers, in the order of the first event of each."""
    found = {}
    for event in plan.events:
        if event.source and event.to:
            ends = [plan.buffers[slot.buffer] for slot in (event.source, event.to)]
            key = (event.kind, *((end.level, end.instance, end.array) for end in ends))
            if key not in found:
                found[key] = carried(event.kind, *ends)
            found[key].add(event.bytes())
    return list(found.values())


def carried(kind, source, to):
    # Buffers of one level: those of the callee stand behind those of its caller.
    down = (source.level, source.offset) < (to.level, to.offset)
    upper, lower = (source, to) if down else (to, source)
    names = [(buffer.instance, buffer.array) for buffer in (lower, upper)]
    return Carried(source.level, to.level, *names, kind)


def lines_of(carried, levels):
    """A line for each, the edges from the root down and what goes down first."""
    listed = sorted(carried, key=lambda one: (min(one.first, one.last), one.first > one.last))
    for one in listed:
        edge = f"{levels[one.first]} -> {levels[one.last]}"
        if one.first == one.last:
            edge = f"in {levels[one.first]}"
        way = "of" if (one.first, one.last) == (one.last, one.first) or one.first < one.last else "to"
        added = ", added" if one.kind == "acc" else ""
        yield f"{edge} {' '.join(one.lower)} {way} {' '.join(one.upper)}: {one.bytes} bytes in {rows_text(one)}{added}"


def rows_text(one):
    many = f"{one.rows} row{'' if one.rows == 1 else 's'}"
    if one.least == one.most:
        return f"{many} of {one.most}"
    return f"{many} of {one.bytes / one.rows:.1f} on average, {one.least} to {one.most}"
