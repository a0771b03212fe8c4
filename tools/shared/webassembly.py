"""The library as a WebAssembly module: from its LLVM module for x86-64 to one that every browser takes.

The module for x86-64 has 64-bit pointers, little-endian bytes, and nothing of x86-64 but its data layout and some attributes. So it is
given the layout of wasm64, and what would be of x86-64 alone is refused. The kit's clang compiles it, rattle-link links it with the heap
of library/linear_heap.c, and Binaryen lowers the addresses to 32 bits.
"""
from __future__ import annotations

import pathlib
import re
import shlex
import shutil
import subprocess
from collections.abc import Sequence

LAYOUT = "e-m:e-p270:32:32-p271:32:32-p272:64:64-i64:64-i128:128-f80:128-n8:16:32:64-S128"
LAYOUT_WASM = "e-m:e-p:64:64-p10:8:8-p20:8:8-i64:64-i128:128-n32:64-S128-ni:1:10:20"
TRIPLE, TRIPLE_WASM = "x86_64-unknown-linux-gnu", "wasm64-unknown-unknown"
OF_X86 = re.compile(r" \"(?:probe-stack|stack-probe-size|target-cpu|target-features|tune-cpu)\"=\"[^\"]*\"")
FOREIGN = re.compile(r"x86_\w+|\basm\b|\bbyval\b|\bsret\b|\baddrspace\b|\bthread_local\b|\bcc ?\d+")
INTRINSIC = re.compile(r"llvm\.x86[\w.]*")
# A function that isn't the module's own, and what the linker reads to export it.
DEFINED = re.compile(r"(?m)^(define (?!internal|private)[^@\n]*@(\w+)\([^{\n]*?) (#\d+) \{$")
# As rattle has the kit's clang compile for wasm64.
CLANG = ["--target=wasm64-unknown-unknown", "-mcpu=lime1", "-mllvm", "-expand-div-rem-bits=64", "-mllvm", "-expand-fp-convert-bits=64",
         "-ffunction-sections", "-fdata-sections", "-mllvm", "-trap-unreachable", "-mllvm", "-disable-machine-licm", "-mllvm",
         "-disable-postra-machine-licm", "-mllvm", "-sink-common-insts=false", "--no-default-config", "-no-canonical-prefixes",
         "-fintegrated-cc1", "-fno-crash-diagnostics", "-Werror", "-O2"]
HEAP = ["-fwrapv", "-ffreestanding", "-nostdinc", "-Wall", "-Wextra", "-c"]
# What the module has beside the first version of WebAssembly: that is all that Binaryen is to expect.
FEATURES = ["memory64", "bulk-memory", "sign-ext", "mutable-globals", "nontrapping-float-to-int", "extended-const", "multivalue"]
# The deepest document takes 1,361 KiB.
STACK = 2 << 20


class Missing(Exception):
    """What the machine lacks, or what failed."""


def run(words: Sequence[str | pathlib.Path]) -> str:
    """The output of a command; what it says, where it fails."""
    ran = subprocess.run([str(word) for word in words], capture_output=True, text=True, errors="replace")
    if ran.returncode:
        raise Missing(f"{ran.stderr[-4000:]}{shlex.join(map(str, words))} failed with status {ran.returncode}")
    return ran.stdout


def kit() -> pathlib.Path:
    """The folder of the Rattle toolchain."""
    rt = shutil.which("rt")
    if not rt:
        raise Missing("there is no rt, whose kit has the compiler and the linker for WebAssembly")
    return pathlib.Path(rt).resolve().parents[1]


def retargeted(text: str) -> str:
    """The text of an LLVM module for x86-64 as one for wasm64, with its functions exported."""
    for name, value in (("datalayout", LAYOUT), ("triple", TRIPLE)):
        if text.count(f'target {name} = "{value}"') != 1:
            raise Missing(f"the LLVM module has another {name} than {value}")
    text = OF_X86.sub("", text.replace(LAYOUT, LAYOUT_WASM).replace(TRIPLE, TRIPLE_WASM))
    text = DEFINED.sub(r'\1 \3 "wasm-export-name"="\2" {', text)
    # Names in quotes may have any words.
    foreign = sorted({*FOREIGN.findall(re.sub(r'"[^"]*"', '""', text)), *INTRINSIC.findall(text)})
    if foreign:
        raise Missing(f"the LLVM module has what only x86-64 has: {', '.join(foreign)}")
    return text


def wasm64(module: pathlib.Path, heap: pathlib.Path, folder: pathlib.Path, stack: int = STACK) -> pathlib.Path:
    """Compiles and links a module whose addresses have 64 bits, in a folder."""
    clang, text = kit() / "toolchain/bin/clang", folder / "sercos.ll"
    text.write_text(retargeted(run([clang, "-x", "ir", module, "-S", "-emit-llvm", "-Xclang", "-disable-llvm-passes", "-o", "-"])),
                    encoding="utf-8")
    run([clang, *CLANG, "-c", "-x", "ir", text, "-o", folder / "sercos.o"])
    run([clang, *CLANG, *HEAP, heap, "-o", folder / "heap.o"])
    run([kit() / "toolchain/bin/llvm-ar", "--format=gnu", "qs", folder / "libsercos.a", folder / "sercos.o", folder / "heap.o"])
    return linked(folder, stack)


def linked(folder: pathlib.Path, stack: int) -> pathlib.Path:
    """Links what is compiled in a folder, with a stack of its own of so many bytes."""
    made = folder / f"sercos64-{stack}.wasm"
    run([kit() / "bin/rattle-link", "--target", TRIPLE_WASM, "--toolchain", kit() / "toolchain", "--stack", str(stack), "-o", made,
         folder / "libsercos.a"])
    return made


def lowered(module: pathlib.Path, made: pathlib.Path) -> None:
    """Lowers the addresses to 32 bits: that pass of Binaryen alone, and none that optimizes."""
    if not shutil.which("wasm-opt"):
        raise Missing("there is no wasm-opt: install Debian's package binaryen")
    run(["wasm-opt", *(f"--enable-{name}" for name in FEATURES), "--memory64-lowering", module, "-o", made])


def sections(module: bytes) -> list[int]:
    """The numbers of a module's sections: 2 imports, 4 tables."""
    if module[:8] != b"\0asm\1\0\0\0":
        raise Missing("the linker made no WebAssembly module")
    found, place = [], 8
    while place < len(module):
        number, place, length, shift = module[place], place + 1, 0, 0
        while True:
            byte = module[place]
            length, shift, place = length | (byte & 0x7F) << shift, shift + 7, place + 1
            if byte < 0x80:
                break
        found.append(number)
        place += length
    return found
