#!/usr/bin/env python3
"""Writes data.txt, and output.txt, which is what the program has to write of it."""
import random

N = 64


def array(name, extents, values):
    """An array as `sq` reads and writes it."""
    rows = [values[at : at + extents[-1]] for at in range(0, len(values), extents[-1])]
    head = f"array {name} int " + "".join(f"[{extent}]" for extent in extents)
    return "\n".join([head, *(" ".join(map(str, row)) for row in rows)]) + "\n"


def write(name, text):
    with open(name, "w") as file:
        file.write(text)


random.seed(1)
F = [3]
X = [random.randint(-9, 9) for _ in range(N)]
Y = [random.randint(-9, 9) for _ in range(N)]
write("data.txt", array("F", [1], F) + array("X", [N], X) + array("Y", [N], Y))
write("output.txt", array("Y", [N], [F[0] * x + y for x, y in zip(X, Y)]))
