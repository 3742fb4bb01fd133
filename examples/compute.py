#!/usr/bin/env python3
"""What each example has to write, computed apart from `sq`: one function an example, from the arrays of its data.txt.

`python3 examples/compute.py` compares the output.txt of each example and names those that differ; with the word
`write` it writes them. An array is a list, or a list of rows; the answer holds the arrays that the program gives back,
in the order of its parameters.
"""
import itertools
import math
import pathlib
import sys

HERE = pathlib.Path(__file__).resolve().parent


def towards_zero(n, d):
    return -(-n // d) if n < 0 else n // d


def double(A):
    return {"B": ("int", [2 * a for a in A])}


def chain(A):
    return double(A)


def blocks(A):
    return {"B": ("int", [2 * a for a in A])}


def saxpy(F, X, Y):
    return {"Y": ("int", [F[0] * x + y for x, y in zip(X, Y)])}


def matmul(A, B, C):
    columns = list(zip(*B))
    return {"C": ("int", [[c + sum(a * b for a, b in zip(row, column)) for c, column in zip(old, columns)]
                          for old, row in zip(C, A)])}


def product(A, B, C):
    return matmul(A, B, C)


def convolution(A, K):
    def window(i, j):
        return sum(K[u][v] * A[i + u][j + v] for u in range(3) for v in range(3))
    return {"B": ("int", [[window(i, j) for j in range(len(A[0]) - 2)] for i in range(len(A) - 2)])}


def stencil(A, B):
    def step(X, Y):
        return [Y[0]] + [towards_zero(a + 2 * b + c, 4) for a, b, c in zip(X, X[1:], X[2:])] + [Y[-1]]
    for _ in range(3):
        B = step(A, B)
        A = step(B, A)
    return {"A": ("int", A), "B": ("int", B)}


def prefix(S, A):
    return {"B": ("int", [S[0] + sum(A[:i + 1]) for i in range(len(A))])}


def histogram(A, H):
    return {"H": ("int", [h + A.count(v) for v, h in enumerate(H)])}


def dot(X, Y, D, L, G):
    return {"D": ("long", [D[0] + sum(x * y for x, y in zip(X, Y))]),
            "L": ("int", [min(L + X)]), "G": ("int", [max(G + X)])}


def transpose(A):
    return {"B": ("int", [list(column) for column in zip(*A)])}


def pairs(A):
    return {"D": ("int", [[abs(a - b) for b in A] for a in A])}


def sort(A):
    return {"A": ("int", sorted(A))}


def rotate(A):
    return {"B": ("byte", [((a << 3) + (a >> 5)) % 256 for a in A])}


def overlap(W, A):
    bands = zip(A, A[1:], A[2:])
    return {"B": ("int", [towards_zero(W[0] * a + W[1] * b + W[2] * c, sum(W)) for a, b, c in bands])}


def fft3d(F, G, H, A):
    """The sum over all of A, at once: no passes, and no steps by twos."""
    X, Y, Z = len(F), len(G), len(H)
    cells = list(itertools.product(range(X), range(Y), range(Z)))

    def point(x, y, z):
        return sum(A[a][b][c] * F[a * x % X] * G[b * y % Y] * H[c * z % Z] for a, b, c in cells) % 998244353
    return {"D": ("int", [[[point(x, y, z) for z in range(Z)] for y in range(Y)] for x in range(X)])}


def gravity(M, R, V):
    def pull(here, mass, there):
        way = [to - at for at, to in zip(here, there)]
        square = 64 + sum(d * d for d in way)
        return [towards_zero(mass * d * 65536, square * math.isqrt(square)) for d in way]

    def plus(a, b):
        return [[x + y for x, y in zip(*rows)] for rows in zip(a, b)]
    for _ in range(2):
        pulls = [[sum(column) for column in zip(*(pull(r, m, q) for m, q in zip(M, R)))] for r in R]
        V = plus(V, pulls)
        R = plus(R, V)
    return {"R": ("int", R), "V": ("int", V)}


def hmmer(E, T, S):
    """For each residue and place the best way that ends there in each state, out of those that ended before."""
    steps = {"M": dict(zip("MID", T[:3])), "I": dict(zip("MI", T[3:5])), "D": dict(zip("MD", T[5:]))}

    def best(before, state, place):
        return [score + steps[state][old][place] for old, score in before.items() if old in steps[state]]

    def score(residues):
        ended = {}
        for i, residue in enumerate(residues):
            for k, gain in enumerate(E[residue]):
                ways = {"M": [gain + way for way in [0] + best(ended.get((i - 1, k - 1), {}), "M", k)],
                        "I": best(ended.get((i - 1, k), {}), "I", k), "D": best(ended.get((i, k - 1), {}), "D", k)}
                ended[i, k] = {state: max(some) for state, some in ways.items() if some}
        return max([0] + [states["M"] for states in ended.values()])
    return {"Z": ("int", [score(row) for row in S])}


def read(path):
    words = path.read_text().split()
    arrays = {}
    while words:
        _, name, _, shape, *words = words
        extents = [int(extent) for extent in shape.strip("[]").split("][")]
        count = 1
        for extent in extents:
            count *= extent
        values, words = [int(word) for word in words[:count]], words[count:]
        for width in extents[:0:-1]:
            values = [values[i:i + width] for i in range(0, len(values), width)]
        arrays[name] = values
    return arrays


def text(arrays):
    lines = []
    for name, (kind, value) in arrays.items():
        rows, shape = [value], f"[{len(value)}]"
        while isinstance(rows[0][0], list):
            rows = [row for several in rows for row in several]
            shape += f"[{len(rows[0])}]"
        lines += [f"array {name} {kind} {shape}"] + [" ".join(map(str, row)) for row in rows]
    return "\n".join(lines) + "\n"


def main():
    differ = 0
    examples = (
        double, blocks, saxpy, matmul, product, convolution, stencil, prefix, histogram, dot, transpose, pairs, sort,
        rotate, overlap, chain, fft3d, gravity, hmmer,
    )
    for example in examples:
        folder = HERE / example.__name__
        wanted, output = text(example(**read(folder / "data.txt"))), folder / "output.txt"
        if sys.argv[1:] == ["write"]:
            output.write_text(wanted)
        elif not output.exists() or output.read_text() != wanted:
            print(f"{output}: not what this computes")
            differ += 1
    return 1 if differ else 0


sys.exit(main())
