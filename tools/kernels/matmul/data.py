#!/usr/bin/env python3
"""Writes data.txt, and output.txt, which is what the program has to write of it."""
import random

M, N, P = 8, 8, 8


def array(name, extents, values):
    """An array as `sq` reads and writes it."""
    rows = [values[at : at + extents[-1]] for at in range(0, len(values), extents[-1])]
    head = f"array {name} int " + "".join(f"[{extent}]" for extent in extents)
    return "\n".join([head, *(" ".join(map(str, row)) for row in rows)]) + "\n"


def write(name, text):
    with open(name, "w") as file:
        file.write(text)


random.seed(1)
A = [random.randint(-9, 9) for _ in range(M * P)]
B = [random.randint(-9, 9) for _ in range(P * N)]
C = [random.randint(-9, 9) for _ in range(M * N)]
product = [sum(A[i * P + k] * B[k * N + j] for k in range(P)) for i in range(M) for j in range(N)]
write("data.txt", array("A", [M, P], A) + array("B", [P, N], B) + array("C", [M, N], C))
write("output.txt", array("C", [M, N], [c + more for c, more in zip(C, product)]))
