"""Second places and values of faults of names, of mappings, of machines and of costs.

Each function takes the fault and the files, and gives a label for the fault's place, other places, and notes. What
isn't there raises Missing, and then nothing is added.
"""
import difflib
from dataclasses import dataclass, field
from math import prod
from typing import List

from sqfiles.programs import Assign, Call, Chain, Choice, For, If, Local, Map, Tunable, Unary, Use

from saying.snippets import Span, span_of


LEAF_CODE = (Assign, Chain, Choice, For, If, Unary)


@dataclass
class Told:
    label: str = ""
    spans: List[Span] = field(default_factory=list)
    notes: List[str] = field(default_factory=list)


class Missing(Exception):
    """Something that a note needs isn't in the files."""


def there(found):
    if found is None:
        raise Missing
    return found


def listed(texts):
    return ", ".join(f"`{text}`" for text in dict.fromkeys(texts)) or "none"


def counted(count, word):
    return f"{count} {word}{'' if count == 1 else 's'}"


def meant(name, known):
    """A label that asks for the nearest of the known names."""
    known = list(known)
    same = [one for one in known if one != name and one.lower() == name.lower()]
    near = same or difflib.get_close_matches(name, known, 1)
    return f"is `{near[0]}` meant?" if near else ""


# ---- names of a program


def declarations(variant):
    """Each name of a variant with what it is, in the order of the text: (token, what it is)."""
    for param in variant.params:
        yield param.name, f"an `{param.mode.text}` array of {dimensions(len(param.extents))}"
        for extent in param.extents:
            if extent.kind == "word":
                yield extent, "a size"
    for one in variant.declared:
        yield one.name, what(one)
    yield from variables(variant.body)


def dimensions(count):
    return counted(count, "dimension")


def what(one):
    if isinstance(one, Tunable):
        return "a tunable list" if one.is_list else "a tunable number"
    if isinstance(one, Local):
        return f"a local array of {dimensions(len(one.dims))}"
    return f"a block set of `{one.array.text}`"


def variables(body):
    for one in body:
        if isinstance(one, Map):
            yield from ((range_.name, "a variable of a map") for range_ in one.ranges)
            yield from variables(one.body)
        elif isinstance(one, For):
            yield one.name, "a counter"
            yield from variables(one.body)
        elif isinstance(one, If):
            yield from variables(one.then + one.other)


def first_of(tokens, place, name):
    """The first token of this name before the place."""
    return there(next((token for token in tokens if token.text == name and token.place < place), None))


def dup_name(fault, files):
    variant = there(there(files.program).around(fault.place))
    found = first_of((token for token, _ in declarations(variant)), fault.place, fault.args[0])
    return Told("declared again", [span_of(found, "first declared here")])


def dup_task(fault, files):
    same = there(files.program).around(fault.place)
    tokens = (one.name for one in files.program.variants if one.kind.text == same.kind.text)
    found = first_of(tokens, fault.place, fault.args[0])
    return Told("a second variant of this kind", [span_of(found, "the first one")])


def unknown_name(fault, files):
    program = there(files.program)
    variant = there(program.around(fault.place))
    called = {call.task.place for call in calls(variant.body)}
    if fault.place in called:
        known, told = [one.name.text for one in program.variants], "tasks"
    else:
        known = [token.text for token, _ in declarations(variant)]
        told = f"names of {variant.name.text}::{variant.kind.text}"
    if fault.args[0] in known:
        return Told("known in the body of its map or loop alone")
    return Told(meant(fault.args[0], known) or "not known here", [], [f"{told}: {listed(known)}"])


def calls(body):
    for one in body:
        if isinstance(one, Call):
            yield one
        elif isinstance(one, Map):
            yield from calls(one.body)


def declared(fault, files):
    """The declaration of the name at the fault's place."""
    variant = there(there(files.program).around(fault.place))
    known = [(token, told) for token, told in declarations(variant) if token.text == fault.args[0]]
    found = [pair for pair in known if pair[0].place < fault.place] or known
    return found[-1] if found else there(None)


def loops(body):
    for one in body:
        if isinstance(one, For):
            yield one
            yield from loops(one.body)
        elif isinstance(one, If):
            yield from loops(one.then + one.other)


def wrong_kind(fault, files):
    for loop in loops(there(there(files.program).around(fault.place)).body):
        if fault.place in (loop.compared.place, loop.stepped.place):
            return Told("the loop's counter has to stand here", [span_of(loop.name, "the counter")])
    token, told = declared(fault, files)
    return Told("another kind of name is needed here", [span_of(token, f"`{token.text}` is {told}")])


def dim_count(fault, files):
    token, told = declared(fault, files)
    spans = [span_of(token, f"`{token.text}` is {told}")] if token.place != fault.place else []
    return Told(indices_at(fault, files) or "another number of dimensions or sizes", spans)


def indices_at(fault, files):
    """How many indices stand behind the name; None where it is declared or passed."""
    variant = files.program.around(fault.place)
    passed = {arg.name.place: arg for call in calls(variant.body) for arg in call.args}
    found = [use for use in uses(variant.body) if use.name.place == fault.place] or [passed.get(fault.place)]
    if found[0] is None:
        return None
    return f"{len(found[0].indices)} {'index' if len(found[0].indices) == 1 else 'indices'}"


def uses(one):
    """The names with indices in leaf code."""
    if isinstance(one, Use):
        yield one
        yield from uses(one.indices)
    elif isinstance(one, list):
        for each in one:
            yield from uses(each)
    elif isinstance(one, LEAF_CODE):
        yield from uses(list(vars(one).values()))


def limit_arrays(fault, files):
    variant = there(there(files.program).around(fault.place))
    local = [one for one in variant.declared if isinstance(one, Local)]
    many = f"{counted(len(variant.params), 'parameter')} and {counted(len(local), 'local')}"
    return Told("", [], [f"{variant.name.text}::{variant.kind.text} has {many}: 32 may be together"])


def write_in(fault, files):
    token, told = declared(fault, files)
    variant = files.program.around(fault.place)
    blocks = variant.blocks(token.text)
    param = there(variant.array(blocks.array.text if blocks else token.text))
    notes = [f"`{token.text}` is {told}"] if blocks else []
    return Told("written here", [span_of(param.mode, f"`{param.name.text}` is `in`, and only read")], notes)


# ---- arguments and parameters


def served(fault, files, task):
    """The variant that serves a call in the variant at the fault's place, by the mapping, or else the task's first."""
    caller = files.program.around(fault.place)
    for instance in files.mapping.instances if files.mapping else []:
        if (instance.task.text, instance.variant.text) == (caller.name.text, caller.kind.text):
            callee = instance.serves(task) and files.mapping.instance(instance.serves(task).text)
            if callee:
                return there(files.program.variant(task, callee.variant.text))
    return there(next(iter(files.program.of_task(task)), None))


def argument_at(fault, files):
    """The call and the number of the argument whose name stands at the fault's place."""
    variant = there(there(files.program).around(fault.place))
    for call in calls(variant.body):
        for number, arg in enumerate(call.args):
            if arg.name.place == fault.place:
                return call, number
    raise Missing


def parameter(fault, files):
    call, number = argument_at(fault, files)
    params = served(fault, files, call.task.text).params
    return there(params[number] if number < len(params) else None)


def head_of(param):
    extents = "".join(f"[{extent.text}]" for extent in param.extents)
    return f"{param.mode.text} {param.elem.text} {param.name.text}{extents}"


def arg_count(fault, files):
    variant = there(there(files.program).around(fault.place))
    call = next((call for call in calls(variant.body) if call.task.place == fault.place), None)
    if call is None:
        first = files.program.of_task(fault.args[0])[0]
        told = f"{counted(len(variant.params), 'parameter')}, and {len(first.params)} in the first variant"
        return Told(told, [span_of(first.name, "the first variant")])
    callee = served(fault, files, call.task.text)
    wanted = span_of(callee.name, f"has {counted(len(callee.params), 'parameter')}")
    return Told(counted(len(call.args), "argument"), [wanted])


def arg_type(fault, files):
    program = there(files.program)
    variant = there(program.around(fault.place))
    own = next((param for param in variant.params if param.name.place == fault.place), None)
    if own:
        first = program.of_task(variant.name.text)[0]
        other = there(first.params[variant.params.index(own)] if len(first.params) == len(variant.params) else None)
        return Told(f"`{head_of(own)}`", [span_of(other.name, f"`{head_of(other)}` in the first variant")])
    param = parameter(fault, files)
    array = there(array_of(variant, fault.args[0]))
    wanted = span_of(param.elem, f"the parameter is `{param.elem.text}`")
    return Told("passed here", [wanted, span_of(array.elem, f"the array is `{array.elem.text}`")])


def array_of(variant, name):
    """The array of this name, or the one whose block set has it."""
    blocks = variant.blocks(name)
    return variant.array(blocks.array.text if blocks else name)


def bad_reduce(fault, files):
    variant = there(there(files.program).around(fault.place))
    reduced = next((one for one in maps(variant.body) if one.array and one.array.place == fault.place), None)
    call = there(reduced).body[0]
    return Told("reduced into", [span_of(call.task, "this call has to have it once, whole, for an `inout` parameter")])


def maps(body):
    for one in body:
        if isinstance(one, Map):
            yield one
            yield from maps(one.body)


def parameter_at(fault, files, label):
    """Faults of an argument whose parameter is the second place."""
    param = parameter(fault, files)
    return Told(label, [span_of(param.name, f"the parameter `{head_of(param)}`")])


# ---- mappings


def instance_at(fault, files):
    return there(there(files.mapping).around(fault.place))


def variant_at(fault, files):
    """The variant of the instance in which the fault's place is, and its name."""
    instance = instance_at(fault, files)
    variant = there(there(files.program).variant(instance.task.text, instance.variant.text))
    return variant, f"{instance.task.text}::{instance.variant.text}"


def tunables_of(variant):
    return [one for one in variant.declared if isinstance(one, Tunable)]


def tunables(fault, files):
    variant, name = variant_at(fault, files)
    found = tunables_of(variant)
    told = listed(f"{one.name.text}{'[]' if one.is_list else ''}" for one in found)
    return Told(tunable_label(fault, found), [], [f"tunables of {name}: {told}"] + elsewhere(fault, files))


def tunable_label(fault, found):
    name = fault.args[0]
    if fault.code == "TunableMissing":
        return f"no value for `{name}`"
    if fault.code == "TunableKind":
        is_list = next((one.is_list for one in found if one.name.text == name), False)
        return "a number, and this tunable is a list" if is_list else "a list, and this tunable is a number"
    return meant(name, [one.name.text for one in found])


def elsewhere(fault, files):
    """The other variants that have a tunable of this name, where it isn't known here."""
    found = [
        f"{one.name.text}::{one.kind.text}"
        for one in (files.program.variants if fault.code == "TunableUnknown" else ())
        if any(tunable.name.text == fault.args[0] for tunable in tunables_of(one))
    ]
    return [f"the tunable `{fault.args[0]}` stands in {', '.join(found)}"] if found else []


def called(fault, files):
    variant, name = variant_at(fault, files)
    known = [call.task.text for call in calls(variant.body)]
    missing = fault.code == "CallMissing"
    label = f"no `call {fault.args[0]} -> ..;`" if missing else meant(fault.args[0], known)
    return Told(label, [], [f"tasks that {name} calls: {listed(known)}"])


def sizes(fault, files):
    entry = there(files.mapping.instance(files.mapping.entry.text) if files.mapping else None)
    variant = there(there(files.program).variant(entry.task.text, entry.variant.text))
    found = [extent.text for param in variant.params for extent in param.extents if extent.kind == "word"]
    label = f"no value for `{fault.args[0]}`" if fault.code == "SizeMissing" else meant(fault.args[0], found)
    return Told(label, [], [f"size names of {entry.task.text}::{entry.variant.text}: {listed(found)}"])


def instances(fault, files):
    found = [one.name.text for one in there(files.mapping).instances]
    return Told(meant(fault.args[0], found), [], [f"instances: {listed(found)}"])


def tasks(fault, files):
    found = [f"{one.name.text}::{one.kind.text}" for one in there(files.program).variants]
    label = meant(fault.args[0], [one.name.text for one in files.program.variants])
    if fault.code == "NoVariant":
        label = f"of `{fault.args[0]}` there is `{files.program.of_task(fault.args[0])[0].kind.text}` alone"
    return Told(label, [], [f"variants of the program: {listed(found)}"])


def level_names(files):
    return [one.name.text for one in there(files.machine).levels]


def levels(fault, files):
    found = level_names(files)
    return Told(meant(fault.args[0], found), [], [f"levels of the machine, from the root: {listed(found)}"])


def node_depth(_, files):
    found = level_names(files)
    return Told(f"deeper than `{found[-1]}`", [], [f"levels of the machine, from the root: {listed(found)}"])


def call_levels(fault, files):
    """LevelSkip: where the caller and the callee are."""
    found = level_names(files)
    told = Told("", [], [f"levels of the machine, from the root: {listed(found)}"])
    named = there(there(files.mapping).instance(fault.args[0]))
    if fault.place == files.mapping.entry.place:
        told.label = f"the entry has to be at `{found[0]}`"
    else:
        caller = instance_at(fault, files)
        next_one = found[found.index(caller.level.text) + 1 :][:1]
        told.label = f"has to be at {' or '.join(f'`{name}`' for name in [caller.level.text, *next_one])}"
        told.spans.append(span_of(caller.level, f"the caller `{caller.name.text}` is here"))
    told.spans.append(span_of(named.level, f"`{named.name.text}` is here"))
    return told


def cycle(fault, files):
    """The calls that lead from the callee back to the caller."""
    mapping = there(files.mapping)
    first = instance_at(fault, files)
    chain = chain_to(mapping, mapping.instance(fault.args[0]), first.name.text, set())
    spans = []
    for caller, call in there(chain):
        spans.append(span_of(call.instance, f"`{caller.name.text}` calls `{call.instance.text}`"))
    return Told(f"`{first.name.text}` calls `{fault.args[0]}`", [one for one in spans if one.place != fault.place])


def chain_to(mapping, instance, last, seen):
    """Calls from an instance to the one of the name `last`; None where there are none."""
    if instance is None or instance.name.text in seen:
        return None
    if instance.name.text == last:
        return []
    seen.add(instance.name.text)
    for call in instance.calls:
        rest = chain_to(mapping, mapping.instance(call.instance.text), last, seen)
        if rest is not None:
            return [(instance, call), *rest]
    return None


def spread_leaf(fault, files):
    instance = instance_at(fault, files)
    return Told("a leaf has no maps", [span_of(instance.variant, f"`{instance.name.text}` is a leaf")])


def limit_choices(fault, files):
    settings = [one for each in there(files.mapping).instances for one in each.tunables]
    counts = [len(one.alternatives) for one in settings if one.name.place <= fault.place and len(one.alternatives) > 1]
    product = f"{' * '.join(map(str, counts))} = {prod(counts)}"
    return Told("", [], [f"with this tunable there are {product} choices, and 4096 may be"])


def call_task(fault, files):
    named = there(there(files.mapping).instance(fault.args[0]))
    return Told("", [span_of(named.task, f"`{named.name.text}` serves this task")])


def dup_instance(fault, files):
    tokens = (one.name for one in there(files.mapping).instances)
    return Told("named again", [span_of(first_of(tokens, fault.place, fault.args[0]), "the first one")])


def dup_item(fault, files):
    mapping = there(files.mapping)
    found = [size.name for size in mapping.sizes]
    if not mapping.instances or fault.place > mapping.instances[0].name.place:
        instance = instance_at(fault, files)
        found = [one.name for one in instance.tunables] + [one.task for one in instance.calls] + instance.spreads
    return Told("given again", [span_of(first_of(found, fault.place, fault.args[0]), "the first one")])


# ---- machines and costs

MOST_NODE, MOST_MEMORIES, MOST_NODES, MOST_FAN, MOST_COST = 1 << 30, 1 << 31, 4096, 64, 1_000_000


def limit_capacity(fault, files):
    machine = there(files.machine)
    if int(fault.args[0]) > MOST_NODE:
        return Told(f"a memory has at most {MOST_NODE} bytes, 2^30")
    total, nodes = 0, 1
    for one in machine.holders():
        nodes *= one.children.value if machine.version == 1 and one.children else 1
        total += nodes * one.capacity.value
        if one.capacity.place == fault.place:
            return Told(f"with this all memories have {total} bytes: at most {MOST_MEMORIES}, 2^31, may be")
    raise Missing


def limit_fan(fault, files):
    last = "above the last level each node" if there(files.machine).version == 2 else "each node"
    return Told(f"{fault.args[0]} children: {last} has 1 to {MOST_FAN}")


def limit_levels(_, files):
    return Told(f"{counted(len(there(files.machine).levels), 'level')}, and 8 may be")


def limit_nodes(fault, files):
    machine = there(files.machine)
    if machine.version == 2:
        return Told(f"{len(list(machine.nodes()))} nodes, and {MOST_NODES} may be")
    counts = [1]
    for level in machine.levels[1:]:
        counts.append(counts[-1] * level.children.value)
        if level.children.place == fault.place:
            return Told(f"with this {' + '.join(map(str, counts))} = {sum(counts)} nodes: at most {MOST_NODES} may be")
    raise Missing


def limit_cost(_, files):
    return Told(f"at most {MOST_COST}")


def dup_level(fault, files):
    tokens = (one.name for one in there(files.machine).levels)
    return Told("named again", [span_of(first_of(tokens, fault.place, fault.args[0]), "the first one")])


def dup_node(fault, files):
    tokens = (node.name for node in there(files.machine).nodes())
    return Told("named again", [span_of(first_of(tokens, fault.place, fault.args[0]), "the first one")])


def level_missing(fault, files):
    told = levels(fault, files)
    told.label = f"the entry of `{fault.args[0]}` is missing"
    return told


def level_name(fault, files):
    found, machine = [cost.level.place for cost in there(files.costs)], there(files.machine)
    at = found.index(fault.place) if fault.place in found else there(None)
    told = levels(fault, files)
    known = at < len(machine.levels)
    told.label = f"`{machine.levels[at].name.text}` has to stand here" if known else "no level is left for this"
    return told


TELL = {
    "DupName": dup_name,
    "DupTask": dup_task,
    "UnknownName": unknown_name,
    "WrongKind": wrong_kind,
    "DimCount": dim_count,
    "WriteIn": write_in,
    "ArgCount": arg_count,
    "ArgType": arg_type,
    "BadReduce": bad_reduce,
    "TunableMissing": tunables,
    "TunableUnknown": tunables,
    "TunableKind": tunables,
    "CallMissing": called,
    "CallUnknown": called,
    "CallTask": call_task,
    "SizeMissing": sizes,
    "SizeUnknown": sizes,
    "NoInstance": instances,
    "NoTask": tasks,
    "NoVariant": tasks,
    "NoLevel": levels,
    "NodeDepth": node_depth,
    "LevelSkip": call_levels,
    "Cycle": cycle,
    "SpreadLeaf": spread_leaf,
    "LimitChoices": limit_choices,
    "LimitArrays": limit_arrays,
    "LimitCapacity": limit_capacity,
    "LimitFan": limit_fan,
    "LimitLevels": limit_levels,
    "LimitNodes": limit_nodes,
    "LimitCost": limit_cost,
    "DupInstance": dup_instance,
    "DupItem": dup_item,
    "DupLevel": dup_level,
    "DupNode": dup_node,
    "LevelName": level_name,
    "LevelMissing": level_missing,
}
