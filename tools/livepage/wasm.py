"""Makes WebAssembly of the library for C: from the code that `rattle build` hands to the kit's clang.

The kit's own wasm64 has no heap. So the LLVM module of the proved crate is kept as it is made for x86-64, given another
triple and layout, and compiled once more, with a heap and the arithmetic of 128 bits from C. binaryen lowers its memory
to 32 bits, which browsers have. No proof covers any step of this path.
"""
import importlib.machinery
import importlib.util
import os
import re
import shutil
import subprocess
import sys

from kept import Kept

HERE = os.path.dirname(os.path.realpath(__file__))
TOP = os.path.dirname(os.path.dirname(HERE))
CRATE, EXPORT = "sq_c", "sq_call"
EXPORTS = (EXPORT, "page_room", "page_free")
STACK = 4 << 20
TARGET = ["--no-default-config", "--target=wasm64-unknown-unknown", "-mcpu=lime1", "-O3"]
C = ["-ffreestanding", "-nostdinc", "-mbulk-memory", "-Wall"]
LAYOUT = "e-m:e-p:64:64-p10:8:8-p20:8:8-i64:64-i128:128-n32:64-S128-ni:1:10:20"
# Attributes of functions that speak of a processor.
FOR_X86 = r' "(?:probe-stack|stack-probe-size|target-cpu|target-features|tune-cpu|frame-pointer)"="[^"]*"'
# The clang that `rattle build` is given: it keeps the module that it has to compile, and makes nothing of it.
KEEPING = """#!/bin/sh
kept=no made=
for word in "$@"; do
  case $word in *.bc) cp "$word" "{module}" && kept=yes ;; esac
  [ "$before" = -o ] && made=$word
  before=$word
done
[ $kept = yes ] || exec "{clang}" "$@"
: >"$made"
"""


class Lacking(Exception):
    """What the path needs isn't here, or a step of it failed: what to say."""


def load_tool(name):
    sys.dont_write_bytecode = True
    loader = importlib.machinery.SourceFileLoader(name.replace("-", "_"), f"{TOP}/tools/{name}")
    module = importlib.util.module_from_spec(importlib.util.spec_from_loader(loader.name, loader))
    loader.exec_module(module)
    return module


def perform(what, words, **more):
    """Runs a step, whose lines go to the log."""
    try:
        ended = subprocess.run(words, stdout=subprocess.PIPE, stderr=subprocess.STDOUT, text=True, errors="replace", **more)
    except OSError as fault:
        raise Lacking(f"{what}: {words[0]}: {fault.strerror}") from None
    if ended.returncode:
        raise Lacking(f"{what} failed:\n{ended.stdout[-4000:].rstrip()}")


# ---- what has to be here


def kit_folder():
    found = shutil.which("rattle")
    if not found:
        raise Lacking("the kit of Rattle isn't here, with its commands rattle and rt")
    return os.path.dirname(os.path.dirname(os.path.realpath(found)))


def find_clang(kit):
    """The kit's clang, which has to know wasm64; under the name wasm-ld it links."""
    clang = f"{kit}/toolchain/bin/clang"
    told = subprocess.run([clang, "--print-targets"], stdout=subprocess.PIPE, text=True).stdout if os.path.exists(clang) else ""
    if "wasm64" not in told:
        raise Lacking(f"the kit has no clang for wasm64 at {clang}: this path stands on that of rattle-kit-13f")
    return clang


def find_lowering():
    found = shutil.which("wasm-opt")
    told = subprocess.run([found, "--help"], stdout=subprocess.PIPE, text=True).stdout if found else ""
    if "--memory64-lowering" not in told:
        raise Lacking("wasm-opt of binaryen isn't here, or has no --memory64-lowering: apt-get install binaryen")
    return found


# ---- the path


def lay_toolchain(kit, clang, folder, module):
    """A copy of the kit's toolchain whose clang keeps the module."""
    os.makedirs(f"{folder}/bin")
    os.symlink(f"{kit}/toolchain/lib", f"{folder}/lib")
    for name in ("llvm-ar", "ld.lld", "rattle-x64"):
        os.symlink(f"{kit}/toolchain/bin/{name}", f"{folder}/bin/{name}")
    with open(f"{folder}/bin/clang", "w", encoding="utf-8") as text:
        text.write(KEEPING.format(module=module, clang=clang))
    os.chmod(f"{folder}/bin/clang", 0o755)


def build_module(kit, clang, folder):
    """Checks the crate over the libraries that are kept, and keeps the LLVM module that is made of it."""
    found, module = Kept(kit, TOP, CRATE), f"{folder}/module.bc"
    if found.lacking():
        names = " ".join(found.lacking())
        raise Lacking(f"of these crates, as they stand, no proof is kept on this machine: {names}. `./sq library` proves them")
    found.lay(f"{folder}/rlibs")
    lay_toolchain(kit, clang, f"{folder}/toolchain", module)
    flags = ["--crate-type", "staticlib", "--incremental", f"{folder}/checked", "--jobs", "1", "--backend", "llvm"]
    flags += ["--toolchain", f"{folder}/toolchain", "-o", f"{folder}/lib{CRATE}.a"]
    perform(f"rattle build of {CRATE}", found.words(kit, f"{folder}/rlibs", flags), cwd=f"{TOP}/crates/{CRATE}")
    if not os.path.exists(module):
        raise Lacking("rattle build gave its clang no .bc: another kit may hand over the module in another way")
    return module


def retarget(text):
    """The same functions for wasm64: another triple and layout, and no word of a processor."""
    text = re.sub(r"(?m)^target datalayout = .*$", f'target datalayout = "{LAYOUT}"', text)
    text = re.sub(r"(?m)^target triple = .*$", 'target triple = "wasm64-unknown-unknown"', text)
    return re.sub(FOR_X86, "", text)


def compile_module(clang, module, folder):
    """The objects: of the module under its new target, of the heap, and of numbers of 128 bits."""
    plain = ["--no-default-config", "--target=x86_64-unknown-linux-gnu", "-S", "-emit-llvm", "-Xclang", "-disable-llvm-passes"]
    perform("writing the module as text", [clang, *plain, "-x", "ir", module, "-o", f"{folder}/module.ll"])
    with open(f"{folder}/module.ll", encoding="utf-8", errors="surrogateescape") as text:
        changed = retarget(text.read())
    with open(f"{folder}/wasm.ll", "w", encoding="utf-8", errors="surrogateescape") as text:
        text.write(changed)
    apart = ["-ffunction-sections", "-fdata-sections", "-mbulk-memory", "-mllvm", "-expand-div-rem-bits=64"]
    perform("compiling the module", [clang, *TARGET, *apart, "-c", "-x", "ir", f"{folder}/wasm.ll", "-o", f"{folder}/module.o"])
    for name in ("heap", "wide"):
        words = [clang, *TARGET, *C, "-ffunction-sections", "-c", f"{HERE}/{name}.c", "-o", f"{folder}/{name}.o"]
        perform(f"compiling {name}.c", words)
    return [f"{folder}/{name}.o" for name in ("module", "heap", "wide")]


def link(clang, objects, folder):
    os.symlink(clang, f"{folder}/wasm-ld")
    words = [f"{folder}/wasm-ld", "-mwasm64", "--no-entry", "--stack-first", "-z", f"stack-size={STACK}", "--gc-sections"]
    words += ["--strip-all", *(f"--export={name}" for name in EXPORTS), *objects, "-o", f"{folder}/wide.wasm"]
    perform("linking", words)
    return f"{folder}/wide.wasm"


def lower(program, wide, folder):
    """A module whose memory has 32 bits."""
    words = [program, "--enable-memory64", "--enable-bulk-memory", "--enable-sign-ext", "--enable-mutable-globals"]
    words += ["--enable-nontrapping-float-to-int", "--enable-multivalue", "--enable-extended-const", "--memory64-lowering", "-O2"]
    perform("lowering to 32 bits", [*words, wide, "-o", f"{folder}/sq.wasm"])
    with open(f"{folder}/sq.wasm", "rb") as made:
        return made.read()


def make(folder):
    """The bytes of a WebAssembly module of the crate, over the libraries that are kept."""
    kit = kit_folder()
    clang, lowering = find_clang(kit), find_lowering()
    objects = compile_module(clang, build_module(kit, clang, folder), folder)
    return lower(lowering, link(clang, objects, folder), folder)
