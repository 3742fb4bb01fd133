#!/usr/bin/env python3
"""What plans of the six programs of the field carry and need, counted apart from `sq`, from the sizes of their blocks.

`python3 examples/carried.py` compares the needs, the edges and the leaf calls of the reports of saxpy, matmul,
convolution, fft3d, gravity and hmmer, their tables, and the rows of examples/README.md, and names those that differ;
with the word `write` it writes the tables and prints the rows. Of each task it knows how its inner variant cuts its
arrays, and what arrays and locals take.
"""
import itertools
import math
import pathlib
import sys
from collections import Counter

HERE = pathlib.Path(__file__).resolve().parent
sys.dont_write_bytecode = True
sys.path.insert(0, str(HERE.parent / "tools"))

from sqfiles import mappings  # noqa: E402

PROGRAMS = ("saxpy", "matmul", "convolution", "fft3d", "gravity", "hmmer")


class BadChop(Exception):
    """The refusal of lists that don't belong together."""


def blocks(size, block):
    return [min(block, size - at) for at in range(0, size, block)]


def room(*arrays):
    """Each array takes its bytes rounded up to a multiple of 8."""
    return sum(-(-size // 8) * 8 for size in arrays)


# ---- how inner variants cut: the task that is called, the sizes that it gets, the bytes that come down and go up


def cut_saxpy(n, U):
    return [("saxpy", (b,), 4 + 8 * b, 4 * b) for b in blocks(n, U)]


def cut_matmul(m, n, p, U, X, V):
    cuts = blocks(m, U), blocks(n, V), blocks(p, X)
    leaves = all(len(set(cut)) == 1 for cut in cuts)  # then C's block comes once for all k, and goes back once
    for i, j in itertools.product(*cuts[:2]):
        for number, k in enumerate(cuts[2]):
            moved = 0 if leaves and number else 4 * i * j
            yield "matmul", (i, j, k), 4 * (i * k + k * j) + moved, moved


def cut_convolve(h, w, p, q, S, E, G):
    if len(S) != len(E):
        raise BadChop("BadChop 7:10 Ab")
    if len(S) != len(G):
        raise BadChop("BadChop 8:10 Bb")
    for s, e, g in zip(S, E, G):
        yield "convolve", (e - s, w, g - s, q), 4 * (e - s) * w + 36, 4 * (g - s) * q


def cut_transform(x, y, z):
    return [("pass", sizes, 0, 0) for sizes in ((x, y, z), (z, x, y), (y, z, x))]


def cut_pass(x, y, z, U, V):
    for u, v in itertools.product(blocks(x, U), blocks(y, V)):
        yield "pass", (u, v, z), 4 * (z + u * v * z), 4 * u * v * z


def cut_turns(n, T):
    return [("pull", (n, n), 0, 0), ("move", (n,), 0, 0)] * T


def cut_pull(n, k, U, W):
    cuts = blocks(k, U), blocks(n, W)
    leaves = all(len(set(cut)) == 1 for cut in cuts)  # then the pulled ones and their sums come once, and go back once
    for u in cuts[0]:
        for number, w in enumerate(cuts[1]):
            stays = leaves and number
            yield "sum", (w, u), 16 * w + (0 if stays else 36 * u), 0 if stays else 24 * u


def cut_sum(n, k, X):
    return [("sum", (x, k), 16 * x + 12 * k, 24 * k) for x in blocks(n, X)]


def cut_move(n, U):
    return [("move", (u,), 48 * u, 24 * u) for u in blocks(n, U)]


def cut_score(q, k, length, n, U, C):
    for _ in range(n // (U * C)):
        for turn in range(C):
            yield "score", (q, k, length, U), U * length + (0 if turn else 4 * q * k + 28 * k), 4 * U


# ---- what the arrays of a task take, and the locals of a variant

ARRAYS = {
    "saxpy": lambda n: room(4, 4 * n, 4 * n),
    "matmul": lambda m, n, p: room(4 * m * p, 4 * p * n, 4 * m * n),
    "convolve": lambda h, w, p, q: room(4 * h * w, 36, 4 * p * q),
    "transform": lambda x, y, z: room(4 * x, 4 * y, 4 * z, 4 * x * y * z, 4 * x * y * z),
    "pass": lambda x, y, z: room(4 * z, 4 * x * y * z, 4 * x * y * z),
    "turns": lambda n: room(4 * n, 12 * n, 12 * n),
    "sum": lambda n, k: room(4 * n, 12 * n, 12 * k, 24 * k),
    "move": lambda n: room(24 * n, 12 * n, 12 * n),
    "score": lambda q, k, length, n: room(4 * q * k, 28 * k, length * n, 4 * n),
}
LOCALS = {
    ("transform", "inner"): lambda x, y, z: 2 * room(4 * x * y * z),
    ("pass", "leaf"): lambda x, y, z: 2 * room(8 * z),
    ("turns", "inner"): lambda n: room(24 * n),
    ("sum", "leaf"): lambda n, k: room(32, 8),
    ("score", "leaf"): lambda q, k, length, n: 3 * room(8 * (k + 1)),
}
ENTRIES = {  # the sizes of a program's entry, in the order in which its task has them above
    "saxpy": "N", "matmul": "M N P", "convolution": "H W P Q", "fft3d": "X Y Z", "gravity": "N", "hmmer": "Q K L N",
}


# ---- the least bytes that have to move between the host and so many cores of so many bytes each


def least_matmul(m, n, p, cores, capacity):
    """Of matrices of ints, by a product of m * n * p steps through memories of so many elements."""
    elements = capacity // 4
    return 4 * (2 * m * n * p / math.sqrt(elements) - 2 * cores * elements)


def least_gravity(n, cores, capacity):
    """While twice a core's bytes move, it has at most four times its bytes of bodies, 36 for one that is pulled, with its
    place and its sums, and 16 for one that pulls: so at most capacity^2 / 144 pairs of them."""
    return 2 * capacity * (144 * n * n / capacity**2 - cores)


LEAST = {  # else all that comes in and goes out once, and what all cores read once for each
    "saxpy": lambda n, cores, capacity: 12 * n + 4 * cores,
    "matmul": least_matmul,
    "convolution": lambda h, w, p, q, cores, capacity: 4 * h * w + 36 * cores + 4 * p * q,
    "fft3d": lambda x, y, z, cores, capacity: 24 * x * y * z + 4 * (x + y + z) * cores,
    "gravity": least_gravity,
    "hmmer": lambda q, k, length, n, cores, capacity: (4 * q * k + 28 * k) * cores + length * n + 4 * n,
}


def entry_sizes(name, mapping):
    sizes = {size.name.text: size.value.value for size in mapping.sizes}
    return tuple(sizes[size] for size in ENTRIES[name].split())


class Plan:
    """What a mapping's plan carries over the edge below each level, needs at each level, and how many leaves it calls."""

    def __init__(self, name, mapping, numbers):
        self.mapping, self.numbers = mapping, numbers
        self.down, self.up, self.need, self.leaves = Counter(), Counter(), Counter(), 0
        calls = Counter({(mapping.entry.text, entry_sizes(name, mapping), 0): 1})
        while calls:
            (instance, shape, base), count = calls.popitem()
            calls.update(self.call(mapping.instance(instance), shape, base, count))

    def call(self, instance, shape, base, count):
        """The calls of so many calls; `base` is what the callers at the same level need, and 0 where there are none."""
        task, level = instance.task.text, instance.level.text
        base = base or ARRAYS[task](*shape)
        base += LOCALS.get((task, instance.variant.text), lambda *_: 0)(*shape)
        self.need[level] = max(self.need[level], base)
        if instance.variant.text == "leaf":
            self.leaves += count
            return {}
        found = Counter()
        for called, sizes, down, up in globals()[f"cut_{task}"](*shape, **self.numbers[instance.name.text]):
            serves = instance.serves(called).text
            lower = self.mapping.instance(serves).level.text != level
            found[serves, sizes, 0 if lower else base] += count
            if lower:
                self.down[level] += count * down
                self.up[level] += count * up
        return found


def choices(mapping):
    """The settings as the table tells them, and the numbers of each instance."""
    keys = [(one.name.text, tunable) for one in mapping.instances for tunable in one.tunables]
    for chosen in itertools.product(*(tunable.alternatives for _, tunable in keys)):
        told, numbers = "", {one.name.text: {} for one in mapping.instances}
        for (instance, tunable), value in zip(keys, chosen):
            numbers[instance][tunable.name.text] = value
            if len(tunable.alternatives) > 1:
                told += f" {instance}.{tunable.name.text}={str(value).replace(' ', '')}"
        yield told, numbers


def outcome(name, mapping, machine, numbers):
    """The traffic of a choice, or None, and what the table tells of it."""
    try:
        plan = Plan(name, mapping, numbers)
    except BadChop as fault:
        return None, f"refused resolve {fault}"
    for level in machine.levels:
        need, capacity = plan.need[level.name.text], level.capacity.value
        if need > capacity:
            return None, f"refused capacity Capacity {level.name.text} {need} {capacity}"
    traffic = sum(plan.down.values()) + sum(plan.up.values())
    return traffic, f"traffic {traffic}"


def table(name, mapping, machine):
    lines, best = [], None
    for number, (told, numbers) in enumerate(choices(mapping)):
        traffic, line = outcome(name, mapping, machine, numbers)
        lines.append(f"choice {number}{told} {line}")
        if traffic is not None and (best is None or traffic < best[0]):
            best = traffic, number
    lines.append(f"best {best[1]} traffic {best[0]}" if best else "best none")
    return "".join(f"{line}\n" for line in lines)


def counted(name, mapping, machine):
    """The lines of a report that are counted here."""
    plan = Plan(name, mapping, next(choices(mapping))[1])
    levels = [level.name.text for level in machine.levels]
    needs = [f"{level} need {plan.need[level]}" for level in levels]
    pairs = zip(levels, levels[1:])
    edges = [f"edge {upper} {lower} down {plan.down[upper]} up {plan.up[upper]}" for upper, lower in pairs]
    return [*needs, *edges, f"leaves {plan.leaves}"]


def told_by(report):
    lines = [line.split() for line in report.splitlines()]
    needs = [f"{words[1]} need {words[words.index('need') + 1]}" for words in lines if words[0] == "level"]
    return needs + [" ".join(words) for words in lines if words[0] in ("edge", "leaves")]


# ---- the rows of examples/README.md


def carried_row(name, stem, mapping, machine):
    plan = Plan(name, mapping, next(choices(mapping))[1])
    levels = [level.name.text for level in machine.levels]
    edges = "; ".join(
        f"{upper}, {lower}: {plan.down[upper]:,} down, {plan.up[upper]:,} up" for upper, lower in zip(levels, levels[1:])
    )
    return f"| {name} | {stem} | {edges} | {plan.leaves} |"


def bound_row(name, mapping, machine):
    core = machine.levels[1]
    sizes = entry_sizes(name, mapping)
    least = math.ceil(LEAST[name](*sizes, core.children.value, core.capacity.value))
    found = [(traffic, told) for told, numbers in choices(mapping)
             for traffic, _ in [outcome(name, mapping, machine, numbers)] if traffic is not None]
    best, told = min(found, key=lambda pair: pair[0])
    settings = ", ".join(word.split(".")[1].replace("=", " = ").replace(",", ", ") for word in told.split())
    return f"| {name} | {least:,} | {best:,} | {best / least:.2f} | {settings} |"


def check_rows(rows):
    readme = (HERE / "README.md").read_text().splitlines()
    if sys.argv[1:] == ["write"]:
        print("\n".join(rows))
        return []
    return [f"examples/README.md has no row {row}" for row in rows if row not in readme]


def differences():
    rows, bounds = [], []
    for name, kind in itertools.product(PROGRAMS, ("report", "table")):
        for stem in ("two", "three", "uneven") if kind == "report" else ("two", "bound"):
            path = HERE / name / f"{stem}.{'map' if kind == 'report' else 'choices'}"
            mapping = mappings.read_mapping(path.read_bytes(), kind == "table")
            machine = mappings.read_machine(path.with_suffix(".mach").read_bytes())
            result = path.with_suffix(f".{kind}")
            if kind == "table" and sys.argv[1:] == ["write"]:
                result.write_text(table(name, mapping, machine))
            found = result.read_text() if result.exists() else ""
            count = counted if kind == "report" else table
            if (told_by(found) if kind == "report" else found) != count(name, mapping, machine):
                yield f"{result}: not what this counts"
            if kind == "report":
                rows.append(carried_row(name, stem, mapping, machine))
            elif stem == "bound":
                bounds.append(bound_row(name, mapping, machine))
    yield from check_rows(rows + bounds)


def main():
    told = list(differences())
    print("".join(f"{line}\n" for line in told), end="")
    return 1 if told else 0


if __name__ == "__main__":
    sys.exit(main())
