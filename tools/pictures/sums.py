"""What else a trace tells: what the edges carried, and which leaf call trapped."""
from texts import LEAF

# How many chains of calls are looked through for the one to a leaf call that trapped.
CHAINS = 1000


def traffic(report, trace):
    """(down, up) of each edge: bytes copied down, and copied or accumulated up."""
    found = [[0, 0] for _ in report.edges]
    for event in trace.events:
        if event.source and event.source[0] != event.to[0]:
            upper = min(event.source[0], event.to[0])
            found[upper][event.to[0] < event.source[0]] += event.size
    return [tuple(pair) for pair in found]


def trapped_leaves(trace, mapping, variants, machine):
    """The leaf calls that may be the one of the trap's line, by their numbers.

    Behind a leaf call that traps its branch doesn't go on. So it is the last of its node and nothing goes up from there
    any more; its variant is the one in which the place lies; and its node is one to which the iterations of the path go.
    """
    words = trace.trap.split(" ")
    line = int(words[2].split(":")[0])
    path = [int(number) for number in words[4].split("/")] if words[4] != "-" else []
    last, gone = {}, {}
    for number, event in enumerate(trace.events):
        if event.kind == LEAF:
            last[event.to] = number
        elif event.source and event.to[0] <= event.source[0]:
            gone[event.source] = number
    found = []
    for node, number in last.items():
        instance = mapping.instances.get(trace.events[number].word)
        variant = variants.get((instance.task, instance.variant)) if instance else None
        inside = variant and variant.first <= line <= variant.last
        if inside and gone.get(node, -1) < number and is_reached(node, path, instance.name, mapping, variants, machine):
            found.append(number)
    return sorted(found)


def is_reached(node, path, leaf, mapping, variants, machine):
    """Whether iterations of this path call the leaf's instance at the node."""
    steps = steps_to(machine, node)
    for count, children in enumerate(chains(mapping.entry, leaf, path, mapping, variants, machine)):
        if count == CHAINS:
            return True
        if len(children) == len(steps) and all(
            not in_turn or number % among == child
            for (number, in_turn), (child, among) in zip(children, steps)
        ):
            return True
    return False


def chains(name, leaf, path, mapping, variants, machine):
    """For each chain of calls from an instance to the leaf's with as many maps as the path has numbers: for each step
    down the iteration that decides the child, and whether they go in turn."""
    if name == leaf:
        if not path:
            yield []
        return
    caller = mapping.instances.get(name)
    body = variants.get((caller.task, caller.variant)) if caller else None
    for call in body.calls if body else []:
        callee = mapping.instances.get(caller.calls.get(call.task))
        if callee is None or len(call.maps) > len(path):
            continue
        step = []
        if callee.level != caller.level:
            spread = [at for at, number in enumerate(call.maps) if is_spread(body, number, caller, mapping)]
            # Outside spread maps the first child is called, as for iteration 0.
            step = [(path[spread[0]] if spread else 0, not spread or not caller.blocked)]
        for rest in chains(callee.name, leaf, path[len(call.maps) :], mapping, variants, machine):
            yield step + rest


def is_spread(body, number, caller, mapping):
    """Whether the map's iterations go to the children, leaving aside maps round it, of which the outermost counts."""
    if body.maps[number].kind == "mapseq":
        return False
    inside = [call for call in body.calls if number in call.maps]
    levels = [mapping.instances[caller.calls[call.task]].level for call in inside if call.task in caller.calls]
    return any(level != caller.level for level in levels) and caller.level not in levels


def steps_to(machine, node):
    """(number among its siblings, how many they are) from the root down to the node."""
    level, index = node
    steps = []
    while level:
        for parent in machine.nodes[level - 1]:
            indices = [below.index for below in parent.below]
            if index in indices:
                steps.append((indices.index(index), len(indices)))
                index = parent.index
                break
        level -= 1
    return steps[::-1]
