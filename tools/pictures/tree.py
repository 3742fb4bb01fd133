"""The tree of memories as far as it is drawn: where it is too wide, nodes of one parent that look alike are one cell."""


class Cell:
    """Nodes that are drawn as one, of one look, and the cells below; or `more` nodes that aren't drawn."""

    def __init__(self, nodes, below, more=0):
        self.nodes, self.below, self.more = nodes, below, more

    def place(self, measure, gap, left, level, placed):
        """Puts (cell, middle, the middles of those below) into the level's list of `placed`, and gives the middle. A
        cell stands above the middle of those below it."""
        inner = sum(cell.width(measure, gap) for cell in self.below) + gap * max(len(self.below) - 1, 0)
        width = self.width(measure, gap)
        at, middles = left + (width - inner) // 2, []
        for cell in self.below:
            middles.append(cell.place(measure, gap, at, level + 1, placed))
            at += cell.width(measure, gap) + gap
        middle = left + width // 2
        placed[level].append((self, middle, middles))
        return middle

    def width(self, measure, gap):
        inner = sum(cell.width(measure, gap) for cell in self.below) + gap * max(len(self.below) - 1, 0)
        return max(measure(self), inner)


def cell_of(node, folded):
    """The cell of a node. From level `folded` on, the nodes of one parent are one cell, or two where they differ."""
    below = [cell_of(child, folded) for child in node.below] if node.level + 1 < folded else fold(node.below, folded)
    return Cell([node], below)


def fold(nodes, folded):
    if not nodes:
        return []
    first = cell_of(nodes[0], folded)
    if len({node.capacity for node in nodes}) == 1 and all(node.name is None for node in nodes):
        return [Cell(nodes, first.below)]
    return [first] + ([Cell([], [], len(nodes) - 1)] if len(nodes) > 1 else [])


def placed_tree(machine, measure, gaps, room):
    """The cells level by level, with as few folded as fit the room; the widest gap that fits is taken."""
    for folded in range(len(machine.nodes), -1, -1):
        root = cell_of(machine.nodes[0][0], folded)
        for gap in gaps:
            if root.width(measure, gap) <= room:
                return place_all(root, machine, measure, gap)
    return place_all(root, machine, measure, gaps[-1])


def place_all(root, machine, measure, gap):
    placed = [[] for _ in machine.nodes]
    root.place(measure, gap, 0, 0, placed)
    return placed, root.width(measure, gap)
