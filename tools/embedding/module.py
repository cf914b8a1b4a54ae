"""The WebAssembly module: the LLVM module that the toolchain made of the proved crate for x86-64, compiled for WebAssembly.

The toolchain's own target for WebAssembly refuses calls of C, and so a heap. So the module's text is given that target (`retargeted`) and
compiled by the toolchain's clang beside a heap of the module's own; rattle-link links both, for a memory with 64-bit addresses, and
binaryen makes these 32 bits wide, which all engines run."""
import fcntl
import hashlib
import json
import pathlib
import re
import subprocess
import tempfile

from building.kit import kit, ran
from embedding import library
from installing.place import New, replace
from litmus.ends import Fault
from litmus.program import PUBLISHED, TOP, version

NEEDS = ("wasm-opt=binaryen", "ar=binutils")
HEAP = TOP / "embed" / "module" / "heap.c"
STACK = 8 << 20
LAYOUT = "e-m:e-p:64:64-p10:8:8-p20:8:8-i64:64-i128:128-n32:64-S128-ni:1:10:20"
TARGET = "wasm64-unknown-unknown"
COMPILE = [f"--target={TARGET}", "-mcpu=lime1", "-O3", "-c", "-ffunction-sections", "-fdata-sections", "-mllvm", "-trap-unreachable",
           "-mllvm", "-no-trap-after-noreturn", "-mllvm", "-expand-div-rem-bits=64"]
AS_TEXT = ["--target=x86_64-unknown-linux-gnu", "-S", "-emit-llvm", "-O0", "-Xclang", "-disable-llvm-passes"]
# What the module may have beyond the first version of WebAssembly: all engines of the last years do.
FEATURES = [f"--enable-{name}" for name in ("memory64", "bulk-memory", "sign-ext", "nontrapping-float-to-int", "mutable-globals")]
FOR_X86 = re.compile(r' "(probe-stack|target-cpu|stack-probe-size)"="[^"]*"')
# An instruction of x86 alone, as the toolchain's printing of floating-point numbers has one. No answer has such a number, so there is a
# trap in its place.
OF_X86 = re.compile(r'^declare (.*) @(llvm\.x86\.[\w.]+)\(([^\n]*)\)[^\n]*$', re.M)
EXPORT = re.compile(r"^(define (?!internal)[^@\n]*@(jslit_\w+)\([^\n]*\)) #(\d+) \{$", re.M)


def without_x86(text):
    """The same with a function that traps in place of each instruction of x86."""
    for declared in list(OF_X86.finditer(text)):
        returns, name, takes = declared.groups()
        trap = f'define internal {returns} @"a trap for {name}"({takes}) {{\n  call void @llvm.trap()\n  unreachable\n}}'
        text = text.replace(declared[0], trap).replace(f"@{name}(", f'@"a trap for {name}"(')
    return text if "declare void @llvm.trap()" in text else text + "\ndeclare void @llvm.trap()\n"


def retargeted(text):
    """An LLVM module's text with WebAssembly as its target, its functions exported."""
    text = re.sub(r"^target datalayout = .*$", f'target datalayout = "{LAYOUT}"', text, flags=re.M)
    text = re.sub(r"^target triple = .*$", f'target triple = "{TARGET}"', text, flags=re.M)
    text = without_x86(FOR_X86.sub("", text))
    groups = dict(re.findall(r"^attributes #(\d+) = \{ (.*) \}$", text, re.M))
    names, more = iter(range(max(map(int, groups)) + 1, 1 << 30)), []

    def exported(found):
        number = next(names)
        more.append(f'attributes #{number} = {{ {groups[found[3]]} "wasm-export-name"="{found[2]}" }}\n')
        return f"{found[1]} #{number} {{"

    return EXPORT.sub(exported, text) + "".join(more)


def number_at(data, at):
    """A number of a module as it is written there, and where it ends."""
    value = shift = 0
    while True:
        value, shift, at = value | (data[at] & 127) << shift, shift + 7, at + 1
        if data[at - 1] < 128:
            return value, at


def with_narrow_table(module):
    """A module whose table has 32-bit indices. It has no entries, and no call takes one, which binaryen would refuse then: nothing proved
    calls by a pointer. Some versions of binaryen read no other table."""
    data, at = bytearray(module), 8
    while at < len(data):
        kind, (size, body) = data[at], number_at(data, at + 1)
        if kind == 9:
            raise Fault("the module's table has entries")
        if kind == 4:
            count, first = number_at(data, body)
            if count != 1:
                raise Fault("the module has more tables than one")
            data[first + 1] &= ~4
        at = body + size
    return bytes(data)


def compiled(folder):
    """The module with 64-bit addresses."""
    clang, link = kit() / "toolchain/bin/clang", kit() / "bin/rattle-link"
    text = folder / "module.ll"
    ran(clang, *AS_TEXT, "-x", "ir", library.MODULE, "-o", text)
    text.write_text(retargeted(text.read_text()))
    ran(clang, *COMPILE, "-x", "ir", text, "-o", folder / "module.o")
    ran(clang, *COMPILE, "-ffreestanding", "-nostdinc", "-x", "c", HEAP, "-o", folder / "heap.o")
    ran("ar", "rcsD", "whole.a", "module.o", "heap.o", cwd=folder)
    made = folder / "wide.wasm"
    ran(link, "--target", TARGET, "--toolchain", kit() / "toolchain", "--stack", str(STACK), "-o", made, folder / "whole.a")
    return made.read_bytes()


def narrowed():
    """The module with 32-bit addresses."""
    with tempfile.TemporaryDirectory() as name:
        folder = pathlib.Path(name)
        (folder / "wide.wasm").write_bytes(with_narrow_table(compiled(folder)))
        ran("wasm-opt", *FEATURES, "--memory64-lowering", "-O3", folder / "wide.wasm", "-o", folder / "jslit.wasm")
        return (folder / "jslit.wasm").read_bytes()


def made():
    """The same of the sources as they stand. It is kept beside what it is made of, under a digest of that and of the tools."""
    library.made()
    sources = [library.MODULE, HEAP, pathlib.Path(__file__), kit() / "KIT-ID"]
    tools = subprocess.run(["wasm-opt", "--version"], capture_output=True).stdout
    digest = hashlib.sha256(b"".join([tools, *(path.read_bytes() for path in sources)])).hexdigest()
    kept = library.MODULE.with_name(f"{digest}.wasm")
    with open(library.MODULE) as turn:
        fcntl.flock(turn, fcntl.LOCK_EX)
        if not kept.exists():
            replace(kept, New(narrowed()))
        return kept.read_bytes()


def files():
    """What is put where, by its name below a prefix: a package as npm has it."""
    own = TOP / "embed" / "npm"
    package = json.loads((own / "package.json").read_text()) | {"version": version()[0], "repository": PUBLISHED["repository"]}
    told = {"package.json": json.dumps(package, indent=2).encode() + b"\n", "jslit.wasm": made(),
            **{name: (own / name).read_bytes() for name in ("index.mjs", "index.d.ts", "README.md")},
            **{name: (TOP / name).read_bytes() for name in ("LICENSE-MIT", "LICENSE-APACHE")}}
    return {f"share/nodejs/jslit/{name}": New(data) for name, data in told.items()}
