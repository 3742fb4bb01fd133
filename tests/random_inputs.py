"""Random inputs of sq: a program with its mapping, machine, data and order list, small, varied, and accepted as a rule.

An inner variant is made with all extents known that it is called with, so that its blocks exist, arguments fit their
parameters, and iterations of a map that runs at once write blocks of their own. What it calls is made behind it, for
the extents that its calls have. Now and then something is let through that a rule or a trap may stop.
"""
import itertools
import re

EDGES = {
    "byte": [0, 1, 2, 127, 128, 254, 255],
    "int": [0, 1, -1, 2, 2**31 - 1, -(2**31), 2**31 - 2, 65536],
    "long": [0, 1, -1, 2, 2**63 - 1, -(2**63), 2**31, 2**32, -(2**31) - 1],
}
ELEMS = list(EDGES)
# As a rule more than is needed.
CAPACITIES = [65536, 65536, 65536, 131072, 4096]
REDUCTIONS = ["+", "*", "min", "max", "&", "|", "^"]
ARRAY_NAMES = ["A", "B", "C", "D", "X", "Y", "Z", "P", "Q", "R", "acc", "in_", "byte1", "_a"]
SIZE_NAMES = ["N", "M", "K", "H", "rows", "n1", "Len", "W", "J", "G"]
PICKS = [str(number) for number in (0, 1, 2, 3, 5, 7, 100, 2**32 - 1)]
TASK_NAMES = "twice add mix step work f g sum_ Run leaf1 t u v w tile low_".split()

# How many levels of calls, how often a form may run, and how many iterations a map may have.
MOST_CALLS = 4
MOST_RUNS = 600
MOST_TURNS = 24


class Array:
    """A parameter or local: its name, mode, element type, and dimensions as they stand in the text."""

    def __init__(self, name, mode, elem, dims):
        self.name, self.mode, self.elem, self.dims = name, mode, elem, dims

    @property
    def written(self):
        return self.mode != "in"


class Range:
    """A variable of a map, the bound as it stands in the text, and what it counts: blocks of a size in a dimension of
    an extent, or those of two lists."""

    def __init__(self, name, bound, grid, at_once):
        self.name, self.bound, self.grid, self.at_once = name, bound, grid, at_once


class Asked:
    """What calls ask of a task: parameters, and for each call that is made the extents of its arguments."""

    def __init__(self, params):
        self.params = params
        self.shapes = []


class Scope:
    """Where a call stands: the ranges round it, and what the maps that run at once have written and read there."""

    def __init__(self, ranges=(), written=None, read=None, reduced=None):
        self.ranges = list(ranges)
        self.written = {} if written is None else written
        self.read = {} if read is None else read
        self.reduced = reduced

    def inside(self, ranges, reduced=None):
        if any(r.at_once for r in self.ranges):
            return Scope(self.ranges + ranges, self.written, self.read, reduced)
        return Scope(self.ranges + ranges, reduced=reduced)

    def at_once(self):
        return [r for r in self.ranges if r.at_once]


def value(text, env):
    """The value of a constant whose numbers are none below 0."""
    return eval(text.replace("/", "//"), {"__builtins__": {}, "len": len}, env)


class Maker:
    """Makes one input."""

    def __init__(self, random):
        self.random = random
        self.tasks = []
        self.instances = []
        self.task_names = random.sample(TASK_NAMES, len(TASK_NAMES))
        self.levels = random.choice([1, 2, 2, 2, 3, 3, 4])
        self.version = random.choice([1, 2])
        self.count = 0

    def often(self, share):
        return self.random.random() < share

    def fresh(self, letter):
        self.count += 1
        return f"{letter}{self.count}"

    def files(self):
        random = self.random
        asked = Asked([self.entry_param() for _ in range(random.randint(1, 4))])
        if all(mode == "in" for mode, _, _ in asked.params):
            asked.params[0] = ("inout", *asked.params[0][1:])
        extents = random.choices([1, 2, 3, 4, 5, 6, 7, 8, 12], k=3)
        asked.shapes.append([[random.choice(extents) for _ in range(rank)] for _, _, rank in asked.params])
        name, params, sizes = self.task(self.task_name(), asked, 0, 0, 1)
        random.shuffle(self.tasks)
        random.shuffle(self.instances)
        bound = ", ".join(f"{size} = {extent}" for size, extent in sizes.items())
        return {
            "program": "".join(self.tasks),
            "mapping": f"mapping {self.version};\nentry {name}({bound});\n" + "".join(self.instances),
            "machine": self.machine(),
            "data": self.data(params, asked.shapes[0]),
            "list": " ".join(random.choices(PICKS, k=random.randint(0, 60))),
        }

    def entry_param(self):
        mode = self.random.choice(["in", "out", "inout", "inout"])
        return mode, self.random.choice(ELEMS), self.random.choice([1, 1, 1, 2, 2, 3])

    # ---- machines and data

    def machine(self):
        names = [f"m{k}" for k in range(self.levels)]
        capacities = [self.random.choice(CAPACITIES) for _ in names]
        if self.often(0.5):
            text = f"machine 1;\nlevel {names[0]} {{ capacity {capacities[0]}; }}\n"
            for name, capacity in zip(names[1:], capacities[1:]):
                text += f"children {self.random.randint(1, 4)};\nlevel {name} {{ capacity {capacity}; }}\n"
            return text
        return f"machine 2;\nlevels {', '.join(names)};\n" + self.node(0, capacities)

    def node(self, depth, capacities):
        below = ""
        if depth + 1 < len(capacities):
            below = "".join(self.node(depth + 1, capacities) for _ in range(self.random.randint(1, 3)))
        capacity = capacities[depth] * self.random.choice([1, 1, 2])
        return f"node {self.fresh('n')} {{ capacity {capacity};\n{below}}}\n"

    def data(self, params, shape):
        text = ""
        for param, extents in zip(params, shape):
            if param.mode == "out":
                continue
            count = 1
            for extent in extents:
                count *= extent
            values = [str(self.datum(param.elem)) for _ in range(count)]
            text += f"array {param.name} {param.elem} {''.join(f'[{e}]' for e in extents)}\n{' '.join(values)}\n"
        return text

    def datum(self, elem):
        return self.random.choice(EDGES[elem]) if self.often(0.4) else self.random.randint(0, 9)

    # ---- tasks

    def task_name(self):
        return self.task_names.pop() if self.task_names else self.fresh("task")

    def task(self, name, asked, level, depth, runs, may_call=True):
        """Makes a variant for what is asked, with the instance that serves it at that level; the instance's name, the
        parameters, and the sizes of the first extents."""
        instance = self.fresh("i")
        params, sizes = self.parameters(asked)
        envs = [self.bind(params, shape) for shape in asked.shapes]
        if may_call and depth < MOST_CALLS and runs < MOST_RUNS and self.often(0.95 if depth == 0 else 0.45):
            Inner(self, name, instance, params, envs, level, depth, runs).make()
        else:
            Leaf(self, name, instance, params, envs, level).make()
        return instance, params, sizes

    def parameters(self, asked):
        """Names for parameters and their extents: dimensions that are always equal may share a name, and one that is
        always the same may be a number."""
        columns = {}
        for p, (_, _, rank) in enumerate(asked.params):
            for d in range(rank):
                columns[p, d] = tuple(shape[p][d] for shape in asked.shapes)
        names = self.random.sample(ARRAY_NAMES, len(asked.params))
        size_names = iter(self.random.sample(SIZE_NAMES, len(SIZE_NAMES)))
        shared, dims, sizes = {}, {}, {}
        for key, column in columns.items():
            if column in shared and self.often(0.75):
                dims[key] = shared[column]
            elif len(set(column)) == 1 and self.often(0.15):
                dims[key] = str(column[0])
            else:
                dims[key] = next(size_names, None) or self.fresh("s")
                sizes[dims[key]] = column[0]
                shared.setdefault(column, dims[key])
        params = [
            Array(names[p], mode, elem, [dims[p, d] for d in range(rank)])
            for p, (mode, elem, rank) in enumerate(asked.params)
        ]
        return params, sizes

    def bind(self, params, shape):
        env = {}
        for param, extents in zip(params, shape):
            for dim, extent in zip(param.dims, extents):
                if not dim.isdigit():
                    env[dim] = extent
        return env


def head_of(params):
    return ", ".join(f"{p.mode} {p.elem} {p.name}{''.join(f'[{d}]' for d in p.dims)}" for p in params)


class Variant:
    """What inner and leaf variants have in common: names, locals and tunables."""

    def __init__(self, maker, task, instance, params, envs, level):
        self.maker, self.random = maker, maker.random
        self.task, self.instance, self.level = task, instance, level
        self.params, self.arrays = params, list(params)
        self.envs = envs
        self.decls, self.items = [], []
        self.taken = {p.name for p in params} | {d for p in params for d in p.dims}

    def often(self, share):
        return self.random.random() < share

    def name(self, letter):
        """A name that no other declaration has."""
        name, count = letter, 0
        while name in self.taken:
            count += 1
            name = f"{letter}{count}"
        self.taken.add(name)
        return name

    def tunable(self, number):
        name = self.name(self.random.choice(["U", "V", "T", "bs"]))
        self.decls.append(f"  tunable int {name};\n")
        self.items.append(f"tunable {name} = {number};")
        for env in self.envs:
            env[name] = number
        return name

    def list_tunable(self, numbers):
        name = self.name("S")
        self.decls.append(f"  tunable int {name}[];\n")
        self.items.append(f"tunable {name} = [{', '.join(map(str, numbers))}];")
        for env in self.envs:
            env[name] = numbers
        return name

    def add_locals(self, most):
        dims = sorted({d for p in self.params for d in p.dims})
        for _ in range(self.random.randint(0, most)):
            name = self.name(self.random.choice(["L", "tmp", "buf"]))
            rank = self.random.choice([1, 1, 2])
            extents = [self.random.choice(dims + ["1", "2", "3"]) for _ in range(rank)]
            self.arrays.append(Array(name, "local", self.random.choice(ELEMS), extents))
            self.decls.append(f"  local {self.arrays[-1].elem} {name}{''.join(f'[{e}]' for e in extents)};\n")

    def finish(self, kind, body):
        spread = ""
        if kind == "inner" and self.maker.version == 2 and self.often(0.5):
            spread = f"spread = {self.random.choice(['cyclic', 'blocked'])}; "
        self.random.shuffle(self.items)
        head = f"void task {self.task}::{kind}({head_of(self.params)})"
        self.maker.tasks.append(f"{head} {{\n{''.join(self.decls)}{body}}}\n")
        self.maker.instances.append(
            f"instance {self.instance} = {self.task}::{kind} @ m{self.level} {{ {spread}{' '.join(self.items)} }}\n"
        )


class Inner(Variant):
    """An inner variant: blocks, maps and calls."""

    def __init__(self, maker, task, instance, params, envs, level, depth, runs):
        super().__init__(maker, task, instance, params, envs, level)
        self.depth, self.runs = depth, runs
        self.sets, self.sizes, self.asked, self.most_runs = {}, {}, [], {}
        self.calls_itself = False

    def make(self):
        self.add_locals(2)
        body = "".join(self.statement(Scope(), "  ") for _ in range(self.random.randint(1, 3)))
        for name, asked, level in self.asked:
            runs = self.runs * self.most_runs[name]
            # A variant of its own task that is called is its leaf.
            callee, _, _ = self.maker.task(name, asked, level, self.depth + 1, runs, name != self.task)
            self.items.append(f"call {name} -> {callee};")
        self.finish("inner", body)

    # ---- sizes of blocks, and block sets

    def extents(self, dim):
        return [value(dim, env) for env in self.envs]

    def block_size(self, dim):
        """A size of blocks for dimensions of an extent; of a few for each."""
        known = self.sizes.setdefault(dim, [])
        if known and (len(known) > 1 or self.often(0.7)):
            return self.random.choice(known)
        greatest = max(self.extents(dim))
        kind = self.random.random()
        if kind < 0.6:
            size = self.tunable(self.random.randint(1, max(1, min(greatest + 1, 6))))
        elif kind < 0.8:
            size = str(self.random.randint(1, max(1, min(greatest, 4))))
        else:
            size = dim
        known.append(size)
        return size

    def block_set(self, array, sizes):
        key = array.name, tuple(sizes)
        if key not in self.sets:
            self.sets[key] = self.name(f"{array.name}{self.random.choice(['b', 's', '_b'])}")
            self.decls.append(f"  blkset {self.sets[key]} = rchop({array.name}, {', '.join(sizes)});\n")
        return self.sets[key]

    def list_set(self, array):
        """A block set by two lists, of rows that every extent has."""
        least = min(self.extents(array.dims[0]))
        cuts = sorted(self.random.sample(range(least + 1), min(least + 1, self.random.randint(2, 5))))
        blocks = list(zip(cuts, cuts[1:]))
        if self.often(0.3):
            blocks = [self.rows(least) for _ in range(self.random.randint(1, 4))]
        starts, ends = self.list_tunable([b[0] for b in blocks]), self.list_tunable([b[1] for b in blocks])
        name = self.name(f"{array.name}i")
        self.decls.append(f"  blkset {name} = ichop({array.name}, {starts}, {ends});\n")
        apart = all(a[1] <= b[0] or b[1] <= a[0] for a, b in itertools.combinations(blocks, 2))
        return name, starts, ends, apart

    def rows(self, least):
        start = self.random.randrange(least)
        return start, self.random.randint(start + 1, least)

    # ---- statements

    def statement(self, scope, indent):
        deep = len(scope.ranges)
        if deep < 3 and self.often(0.75 if deep == 0 else 0.3):
            made = self.map(scope, indent)
            if made:
                return made
        return self.call(scope, indent)

    def turns(self, ranges):
        """The most iterations that these ranges have within one another."""
        most = 0
        for env in self.envs:
            count = 1
            for r in ranges:
                count *= max(0, value(r.bound, env))
            most = max(most, count)
        return most

    def map(self, scope, indent):
        kind = self.random.choice(["mappar", "mappar", "mapseq", "mapreduce"])
        if kind == "mapreduce" and scope.at_once():
            kind = "mapseq"
        reducible = [a for a in self.arrays if a.written]
        if kind == "mapreduce" and not reducible:
            kind = "mappar"
        if kind != "mapreduce" and self.often(0.12):
            return self.map_by_lists(kind, scope, indent)
        dims = self.random.choices([d for a in self.arrays for d in a.dims], k=self.random.choice([1, 1, 2]))
        ranges = [self.range(dim, kind != "mapseq") for dim in dims]
        if self.turns(scope.ranges + ranges) > MOST_TURNS:
            return None
        reduced = self.random.choice(reducible) if kind == "mapreduce" else None
        inside = scope.inside(ranges, reduced)
        head = ", ".join(f"int {r.name} = 0 to {r.bound}" for r in ranges)
        if reduced:
            op = self.random.choice(REDUCTIONS)
            body = self.call(inside, indent + "  ")
            return f"{indent}mapreduce ({head}) reduce ({op}, {reduced.name}) {{\n{body}{indent}}}\n"
        body = "".join(self.statement(inside, indent + "  ") for _ in range(self.random.choice([1, 1, 2])))
        return f"{indent}{kind} ({head}) {{\n{body}{indent}}}\n"

    def range(self, dim, at_once):
        size = self.block_size(dim)
        whole = dim if size == "1" else "1" if size == dim else f"({dim} + {size} - 1) / {size}"
        bound = whole
        if self.often(0.12) and size != dim:
            bound = f"{dim} / {size}"
        elif self.often(0.1):
            bound = str(min(value(whole, env) for env in self.envs))
        elif self.often(0.03):
            bound = "0"
        return Range(self.name(self.random.choice(["i", "j", "k"])), bound, (dim, size), at_once)

    def map_by_lists(self, kind, scope, indent):
        """A map over the blocks of two lists, with one call: the block and some whole arrays that are read."""
        array = self.random.choice(self.arrays)
        blocks, starts, ends, apart = self.list_set(array)
        r = Range(self.name("i"), f"len({starts})", (starts, ends), kind != "mapseq")
        if self.turns(scope.ranges + [r]) > MOST_TURNS or scope.at_once():
            return None
        written = array.written and (apart or kind == "mapseq") and self.often(0.7)
        args = [(array, f"{blocks}[{r.name}]", self.random.choice(["out", "inout"]) if written else "in")]
        others = [a for a in self.arrays if a is not array]
        if others and self.often(0.6):
            other = self.random.choice(others)
            args.append((other, other.name, "in"))

        def shape(env):
            at = env[r.name]
            rows = env[ends][at] - env[starts][at]
            first = [rows, *(value(d, env) for d in array.dims[1:])]
            return [first, *([value(d, env) for d in a.dims] for a, _, _ in args[1:])]

        line = self.asking(args, shape, scope.ranges + [r], indent + "  ")
        return f"{indent}{kind} (int {r.name} = 0 to {r.bound}) {{\n{line}{indent}}}\n"

    # ---- calls

    def call(self, scope, indent):
        args = self.arguments(scope)
        if not args:
            return ""
        kept = [(array, text, mode) for array, text, mode, _, _ in args]

        def shape(env):
            return [self.extent_of(array, sizes, index, env) for array, _, _, sizes, index in args]

        return self.asking(kept, shape, scope.ranges, indent)

    def arguments(self, scope):
        """Arguments as they come, or one for each parameter of the own task."""
        if not scope.reduced and self.often(0.25):
            args = [self.try_argument(param, scope, set(), param.mode) for param in self.params]
            if all(args) and [a[2] for a in args] == [p.mode for p in self.params]:
                return args
        args = [self.argument(scope.reduced, [], [], "inout")] if scope.reduced else []
        for _ in range(self.random.choice([1, 2, 2, 3, 4])):
            made = self.try_argument(self.random.choice(self.arrays), scope, {a[0].name for a in args if a[2] != "in"})
            if made:
                args.append(made)
        self.random.shuffle(args)
        return args

    def extent_of(self, array, sizes, index, env):
        extents = []
        for d, dim in enumerate(array.dims):
            extent = value(dim, env)
            if sizes:
                size, at = value(sizes[d], env), value(index[d], env)
                extent = min((at + 1) * size, extent) - at * size
            extents.append(extent)
        return extents

    def argument(self, array, sizes, index, mode):
        if not sizes:
            return array, array.name, mode, sizes, index
        text = self.block_set(array, sizes) + "".join(f"[{at}]" for at in index)
        return array, text, mode, sizes, index

    def try_argument(self, array, scope, written, mode=None):
        """An argument of this array that no rule is against, as far as that is known here."""
        if scope.reduced and array is scope.reduced:
            return None
        sizes, index, used = self.block_in(array, scope)
        at_once = scope.at_once()
        apart = all(r in used for r in at_once)
        if mode is None:
            mode = self.random.choice(["in", "out", "inout", "inout"]) if array.written else "in"
        if mode != "in" and (array.name in written or not apart) and not self.often(0.01):
            mode = "in"
        if at_once and not self.allowed(array, tuple(sizes), tuple(index), used, mode, scope):
            return None
        return self.argument(array, sizes, index, mode)

    def block_in(self, array, scope):
        """A block of the array by the variables round the call, or all of it; and the variables that pick it."""
        if not scope.ranges and self.often(0.6) or self.often(0.15):
            return [], [], []
        sizes, index, used = [], [], []
        for dim in array.dims:
            fitting = [r for r in scope.ranges if r.grid[0] == dim and r not in used]
            if fitting and self.often(0.9):
                r = self.random.choice(fitting)
                sizes.append(r.grid[1])
                index.append(r.name if self.often(0.85) else f"{r.bound} - 1 - {r.name}")
                used.append(r)
            else:
                sizes.append(self.block_size(dim))
                index.append("0")
        return sizes, index, used

    def allowed(self, array, sizes, index, used, mode, scope):
        """Within maps that run at once an array that is written is used by the same blocks everywhere."""
        block = sizes, tuple(at if any(r.at_once and r.name in at for r in used) else "" for at in index)
        name = array.name
        if name in scope.written and scope.written[name] != block:
            return self.often(0.01)
        if mode != "in":
            if any(other != block for other in scope.read.get(name, ())):
                return self.often(0.01)
            scope.written[name] = block
        scope.read.setdefault(name, set()).add(block)
        return True

    def asking(self, args, shape, ranges, indent):
        """The line of a call, with what its arguments ask of the callee, for each time that it is begun."""
        shapes = [shape(env) for env in self.environments(ranges)]
        params = [(mode, array.elem, len(array.dims)) for array, _, mode in args]
        name, asked = self.task_for(params)
        for one in shapes:
            if one not in asked.shapes:
                asked.shapes.append(one)
        if not asked.shapes:
            # The call is never begun: it may have any extents.
            asked.shapes.append([[1] * rank for _, _, rank in params])
        self.most_runs[name] = self.most_runs.get(name, 0) + max(1, self.turns(ranges))
        return f"{indent}{name}({', '.join(text for _, text, _ in args)});\n"

    def task_for(self, params):
        """A task that another call asks for already, where it has these parameters, the own one, or a new one."""
        for name, asked, _ in self.asked:
            if asked.params == params and self.often(0.6):
                return name, asked
        name = self.maker.task_name()
        if params == [(p.mode, p.elem, len(p.dims)) for p in self.params] and not self.calls_itself:
            name, self.calls_itself = self.task, True
        level = self.level + 1 if self.level + 1 < self.maker.levels and self.often(0.65) else self.level
        self.asked.append((name, Asked(params), level))
        return name, self.asked[-1][1]

    def environments(self, ranges):
        """All bindings of the sizes and of these variables, for each extents and iteration."""
        for env in self.envs:
            counts = [max(0, value(r.bound, env)) for r in ranges]
            for numbers in itertools.product(*map(range, counts)):
                yield {**env, **{r.name: number for r, number in zip(ranges, numbers)}}


class Leaf(Variant):
    """A leaf variant: loops, branches and assignments."""

    def make(self):
        self.add_locals(1)
        self.numbers = [d for a in self.arrays for d in a.dims if not d.isdigit()]
        for _ in range(self.random.choice([0, 0, 1, 2])):
            self.numbers.append(self.tunable(self.random.choice([-3, 0, 1, 2, 7, 63, 2**63 - 1, -(2**63) + 1])))
        body = "".join(self.statement({}, "  ", 0) for _ in range(self.random.randint(0, 3)))
        self.finish("leaf", body)

    def statement(self, counters, indent, depth):
        kind = self.random.random()
        writable = [a for a in self.arrays if a.written]
        if not writable:
            return ""
        if kind < 0.45 and depth < 3:
            return self.loop(counters, indent, depth)
        if kind < 0.6 and depth < 3:
            return self.branch(counters, indent, depth)
        array = self.random.choice(writable)
        op = self.random.choice(["=", "=", "=", "+=", "-=", "*="])
        return f"{indent}{array.name}{self.index(array, counters)} {op} {self.expr(counters, 0)};\n"

    def loop(self, counters, indent, depth):
        name = self.name("i")
        dim = self.random.choice([d for a in self.arrays for d in a.dims])
        first = self.random.choice(["0", "0", "0", "1", "-1 + 1"])
        inside = {**counters, name: dim}
        count = self.random.choice([1, 1, 2])
        body = "".join(self.statement(inside, indent + "  ", depth + 1) for _ in range(count))
        if not body:
            return ""
        return f"{indent}for (int {name} = {first}; {name} < {dim}; {name}++) {{\n{body}{indent}}}\n"

    def branch(self, counters, indent, depth):
        test = self.expr(counters, 1)
        one, other = (self.statement(counters, indent + "  ", depth + 1) for _ in range(2))
        tail = f" else {{\n{other}{indent}}}\n" if self.often(0.5) else "\n"
        return f"{indent}if ({test}) {{\n{one}{indent}}}{tail}"

    def index(self, array, counters):
        return "".join(f"[{self.index_in(dim, counters)}]" for dim in array.dims)

    def index_in(self, dim, counters):
        """An index within a dimension, as a rule."""
        fitting = [name for name, bound in counters.items() if bound == dim]
        kind = self.random.random()
        if fitting and kind < 0.6:
            return self.random.choice(fitting)
        if fitting and kind < 0.7:
            return f"{dim} - 1 - {self.random.choice(fitting)}"
        if counters and kind < 0.85:
            return f"({' + '.join(self.random.choices(list(counters), k=2))} + {self.random.randint(0, 3)}) % {dim}"
        if self.often(0.01):
            return self.expr(counters, 2)
        return self.random.choice(["0", f"{dim} - 1", f"min({self.random.randint(0, 3)}, {dim} - 1)"])

    def expr(self, counters, depth):
        kind = self.random.random()
        if depth > 2 or kind < 0.45:
            return self.simple(counters)
        left, right = (self.expr(counters, depth + 1) for _ in range(2))
        if kind < 0.75:
            op = self.random.choice(["+", "-", "*", "&", "|", "^", "+", "-"])
        elif kind < 0.83:
            op = self.random.choice(["<", "<=", ">", ">=", "==", "!=", "&&", "||"])
        elif kind < 0.88:
            op = self.random.choice(["<<", ">>"])
        elif kind < 0.93:
            op = self.random.choice(["/", "%"])
            if self.often(0.96):
                right = self.random.choice([f"({right} | 1)", f"({right} | 1)", "2", "-1", "7"])
        elif kind < 0.97:
            return f"{self.random.choice(['min', 'max'])}({left}, {right})"
        else:
            return f"{self.random.choice(['-', '~', '!'])}({left})"
        return f"({left} {op} {right})" if depth else f"{left} {op} {right}"

    def simple(self, counters):
        kind = self.random.random()
        names = list(counters) + self.numbers
        if kind < 0.5:
            array = self.random.choice(self.arrays)
            return array.name + self.index(array, counters)
        if names and kind < 0.75:
            return self.random.choice(names)
        return str(self.random.choice([0, 1, 2, 3, 7, 10, 255, 256, 2**31, 2**63 - 1]))


# ---- inputs with one change

SIGNS = ":: ( ) [ ] { } , ; = + - * / % & | ^ ~ ! < > <= >= == != << >> && || ++ += -= *= @ ->".split()


def tokens_of(text):
    """A text cut into words, signs and blanks."""
    return re.findall(r"[A-Za-z_]\w*|\d+|::|->|<<|>>|<=|>=|==|!=|&&|\|\||\+\+|[-+*]=|\s+|.", text, re.S)


def changed(random, files):
    """The input with one token of one file taken away, repeated, replaced, put in or moved; and what was changed."""
    name = random.choice(["program"] * 5 + ["mapping"] * 3 + ["machine", "data", "data", "list"])
    tokens = tokens_of(files[name])
    places = [k for k, token in enumerate(tokens) if not token.isspace()]
    if not places:
        return {**files, name: files[name] + " x"}, f"{name}: a word is put in"
    at = random.choice(places)
    kind = random.choice(["goes", "is repeated", "is replaced", "is replaced", "is moved", "is put in"])
    number = str(random.choice([0, 1, 2, 3, 64, 2**31, 2**63]))
    other = random.choice([tokens[random.choice(places)], random.choice(SIGNS), number])
    if kind == "goes":
        tokens[at] = " "
    elif kind == "is repeated":
        tokens[at] = f"{tokens[at]} {tokens[at]}"
    elif kind == "is replaced":
        tokens[at] = other
    elif kind == "is put in":
        tokens[at] = f"{tokens[at]} {other} "
    else:
        to = random.choice(places)
        tokens[at], tokens[to] = tokens[to], tokens[at]
    return {**files, name: "".join(tokens)}, f"{name}: a token {kind}"
