"""The pages that are tested, and of choices: what they are made of, and the texts that they have to agree with."""
import os
import subprocess
from dataclasses import dataclass
from typing import List

TOP = os.path.dirname(os.path.dirname(os.path.dirname(os.path.realpath(__file__))))
SQ = os.path.abspath(os.environ.get("SQ") or os.path.join(TOP, "sq"))
os.environ["SQ"] = SQ


@dataclass
class Sample:
    name: str
    words: List[str]  # behind tools/picture
    report: str
    traces: List[str]


def read(path):
    with open(os.path.join(TOP, path), encoding="utf-8") as file:
        return file.read()


def run_sq(*words):
    return subprocess.run([SQ, *words], cwd=TOP, capture_output=True, text=True)


def from_program(name, folder, files):
    """A page of what sq prints."""
    words = [f"examples/{folder}/{file}" for file in ("program.sq", f"{files}.map", f"{files}.mach", "data.txt")]
    report = run_sq("plan", *words[:3]).stdout
    traces = [run_sq("run", *words, f"order={order}", "trace=yes").stderr for order in ("first", "last")]
    return Sample(name, words, report, traces)


def from_texts(name, folder, files):
    """A page of the report and the trace that stand beside the example."""
    report, trace = f"examples/{folder}/{files}.report", f"examples/{folder}/trace.txt"
    words = ["--plan", report, "--trace", trace]
    words += [f"examples/{folder}/{file}" for file in ("program.sq", f"{files}.map", f"{files}.mach")]
    return Sample(name, words, read(report), [read(trace)])


def samples():
    return [
        from_program("matmul", "matmul", "three"),
        from_program("overlap", "overlap", "two"),
        from_texts("texts", "overlap", "two"),
        from_program("histogram", "histogram", "two"),
        from_program("uneven", "blocks", "uneven"),
    ]


def make(sample, path):
    """The page of a sample; what went wrong where it can't be made."""
    ended = subprocess.run([os.path.join(TOP, "tools", "picture"), *sample.words], cwd=TOP, capture_output=True)
    with open(path, "wb") as file:
        file.write(ended.stdout)
    return ended.stderr.decode("utf-8", "replace") or (f"status {ended.returncode}" if ended.returncode else "")


def large(folder, blocks=25000):
    """A page of more than 100,000 events: the texts of doubling `blocks` blocks of 4 elements on two memories."""
    size = 16 * blocks
    written = {
        "large.map": f"mapping 1; entry top(N = {4 * blocks}); instance top = twice::inner @ host {{ tunable U = 4; "
        "call twice -> low; } instance low = twice::leaf @ core { }\n",
        "large.mach": f"machine 1; level host {{ capacity {2 * size}; }} children 2; level core {{ capacity 32; }}\n",
        "large.report": f"level host nodes 1 capacity {2 * size} need {2 * size} used {2 * size}\n"
        "level core nodes 2 capacity 32 need 32 used 32\n"
        f"buffer host 0 {size} top A\nbuffer host {size} {size} top B\nbuffer core 0 16 low A\nbuffer core 16 16 low B\n"
        f"edge host core down {size} up {size}\nleaves {blocks}\n",
        "large.first": large_trace(blocks, size, False),
        "large.last": large_trace(blocks, size, True),
    }
    for name, text in written.items():
        with open(os.path.join(folder, name), "w", encoding="utf-8") as file:
            file.write(text)
    words = ["--plan", os.path.join(folder, "large.report")]
    for order in ("first", "last"):
        words += ["--trace", os.path.join(folder, f"large.{order}")]
    words += ["examples/blocks/program.sq", os.path.join(folder, "large.map"), os.path.join(folder, "large.mach")]
    return Sample("large", words, written["large.report"], [written["large.first"], written["large.last"]])


def large_trace(blocks, size, last):
    lines = [f"fill 0.0:{size} {size}"]
    for core in (1, 0) if last else (0, 1):
        for block in range(core, blocks, 2):
            copied, filled = f"copy 0.0:{16 * block} 1.{core}:0 16", f"fill 1.{core}:16 16"
            lines += [filled, copied] if last else [copied, filled]
            lines += [f"leaf 1.{core} low", f"copy 1.{core}:16 0.0:{size + 16 * block} 16"]
    return "\n".join(lines) + "\n"


PLAN = """plan 1;
node 0 {room} 1 {cores};
{nodes}buffer 0 0 {size} top A;
buffer 0 {size} {size} top B;
buffer 1 0 16 low A;
buffer 1 16 16 low B;
leaf low (N = 4)
void task twice::leaf(in int A[N], out int B[N]) {{
  for (int i = 0; i < N; i++) {{
    B[i] = A[i] + A[i];
  }}
}}
array in int A [{elements}] 0;
array out int B [{elements}] 1;
seq {{
fill 1+0 int {elements} 0;
par {{
{parts}}}
}}
"""
BLOCK = """at {node} [2, 3] {{
seq {{
par {{
copy 0+{at} 2+0 16;
fill 3+0 int 4 0;
}}
run 0 (2+0 int [4] [1], 3+0 int [4] [1]) [{block}];
copy 3+0 1+{at} 16;
}}
}}
"""


def long_plan(blocks=16383, cores=64):
    """A plan file of 65,533 events: doubling blocks of 4 elements, on each core one after another."""
    parts = ""
    for core in range(cores):
        own = range(core, blocks, cores)
        parts += "seq {\n" + "".join(BLOCK.format(node=core + 1, at=16 * n, block=n) for n in own) + "}\n"
    size = {"room": 32 * blocks, "size": 16 * blocks, "elements": 4 * blocks}
    return PLAN.format(cores=cores, nodes="node 1 32 0 0;\n" * cores, parts=parts, **size)


def table(down, right):
    """A table of choices for each pair of numbers up to these two, of which some are refused."""
    lines, carried = [], {}
    for number in range(down * right):
        first, second = number // right + 1, number % right + 1
        told = f"refused capacity Capacity core {first * second} {down * right // 2}"
        if 2 * first * second <= down * right:
            carried[number] = 1000 * down * right // (first + second)
            told = f"traffic {carried[number]}"
        lines.append(f"choice {number} top.U={first} low.M=[{second},-1] {told}\n")
    best = min(carried, key=carried.get)
    return "".join(lines) + f"best {best} traffic {carried[best]}\n"
