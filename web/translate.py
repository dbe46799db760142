"""Translates the proved library to WebAssembly: translate.py KIT MODULE.bc ALLOCATOR STACK OUT.wasm.

KIT is the kit's folder, MODULE.bc the LLVM module that its backend made of the library for x86-64, ALLOCATOR the folder
of dlmalloc.c, and STACK the size of the stack in bytes. The kit's backend does not compile the heap for wasm64. For a
crate without a heap its modules for wasm64 and x86-64 differ only by two guards, which are added here in the same form: a
function traps if its frame would lie below the stack, and an export goes through __rattle_enter and __rattle_leave, so
that none is entered after a trap or while another runs. This step is not proved; tests/page compares the result with the
program.
"""
import itertools
import pathlib
import re
import subprocess
import sys
import tempfile

FOLDER = pathlib.Path(__file__).resolve().parent
TARGET = "wasm64-unknown-unknown"
LAYOUT = "e-m:e-p:64:64-p10:8:8-p20:8:8-i64:64-i128:128-n32:64-S128-ni:1:10:20"
CPU = "lime1"
# the options with which the kit calls clang for wasm64
FLAGS = [
    f"--target={TARGET}", f"-mcpu={CPU}", "-mllvm", "-expand-div-rem-bits=64", "-mllvm", "-expand-fp-convert-bits=64",
    "-ffunction-sections", "-fdata-sections", "-mllvm", "-trap-unreachable", "-mllvm", "-no-x86-call-frame-opt",
    "-mllvm", "-disable-machine-licm", "-mllvm", "-disable-postra-machine-licm", "-mllvm", "-sink-common-insts=false",
    "--no-default-config", "-no-canonical-prefixes", "-fintegrated-cc1", "-fno-crash-diagnostics",
]
HEAD = re.compile(r'^define (internal )?([^@\n]*)@("[^"]*"|[\w.$]+)\((.*)\) ([^\n{]*)\{$')
FRAME_GUARD = """  %guard.frame = call ptr @llvm.frameaddress.p0(i32 0)
  %guard.at = ptrtoint ptr %guard.frame to i64
  %guard.below = icmp slt i64 %guard.at, 16
  br i1 %guard.below, label %guard.trap, label %guard.ok

guard.trap:
  call void @llvm.trap()
  unreachable

guard.ok:"""
DECLARED = """
declare noundef zeroext i1 @__rattle_enter() nounwind
declare void @__rattle_leave() nounwind
declare void @__rattle_trap() nounwind
declare ptr @llvm.frameaddress.p0(i32 immarg)
"""


def with_frame_guard(lines):
    """The lines of a function, with the guard after the last `alloca` of its first block. A leaf has no frame."""
    first = next((i for i, line in enumerate(lines) if line and not line.startswith((" ", "start:"))), len(lines))
    places = [i for i, line in enumerate(lines[:first]) if "= alloca " in line]
    calls = any(re.search(r"\bcall\b(?! void @llvm\.(memset|memmove|trap))", line) for line in lines)
    if not places and not calls:
        return lines
    at = places[-1] + 1 if places else 1
    return [*lines[:at], FRAME_GUARD, *lines[at:]]


def entry_guard(name, kind, parameters):
    """A function under an export's name, which is entered only if no call has trapped or is running."""
    given = ", ".join(f"{one.split()[0]} {one.split()[-1]}" for one in parameters.split(", ") if one)
    answer = kind.split()[-1]
    return f"""define {kind}@{name}({parameters}) nounwind "target-cpu"="{CPU}" "wasm-export-name"="{name}" {{
start:
  %free = call i1 @__rattle_enter()
  br i1 %free, label %spent, label %run

spent:
  call void @__rattle_trap()
  unreachable

run:
  %answer = call {answer} @"rattle::export {name}"({given})
  call void @__rattle_leave()
  ret {answer} %answer
}}
"""


def refuse_foreign(text):
    """Stops at code that means something else on another processor, or that the guards would break."""
    found = {*re.findall(r"@(llvm\.x86\.[\w.]+)", text), *re.findall(r"\basm (?:sideeffect )?\"", text)}
    if found:
        sys.exit(f"translate.py: code for x86-64 alone: {sorted(found)}")
    if "= phi " in text:
        sys.exit("translate.py: a phi node, whose block a guard would move")


def translated(text):
    """The text of the module for wasm64."""
    refuse_foreign(text)
    text = re.sub(r'target datalayout = ".*"', f'target datalayout = "{LAYOUT}"', text)
    text = re.sub(r'target triple = ".*"', f'target triple = "{TARGET}"', text)
    text = re.sub(r'"target-cpu"="[^"]*"', f'"target-cpu"="{CPU}"', text)
    out, exports, lines = [], [], iter(text.split("\n"))
    for line in lines:
        head = HEAD.match(line)
        if not head:
            out.append(line)
            continue
        internal, kind, name, parameters, attributes = head.groups()
        if not internal:
            exports.append(entry_guard(name, kind, parameters))
            line = f'define internal {kind}@"rattle::export {name}"({parameters}) noinline {attributes}{{'
        out += [line, *with_frame_guard(list(itertools.takewhile(lambda one: one != "}", lines))), "}"]
    return "\n".join([*out, *exports]) + DECLARED


class Reader:
    """Reads the bytes of a module."""

    def __init__(self, data, at=0):
        self.data, self.at = data, at

    def take(self, length):
        self.at += length
        return self.data[self.at - length : self.at]

    def number(self):
        byte = self.take(1)[0]
        return byte if byte < 128 else byte - 128 + 128 * self.number()

    def export(self):
        """The name of an export, and its kind: 0 for a function, 2 for a memory."""
        name, kind, _ = self.take(self.number()).decode(), self.take(1)[0], self.number()
        return name, kind


def check_surface(wasm):
    """Stops if a module has imports, or if it exports other functions than exact_answer."""
    reader, sections = Reader(wasm, 8), {}
    while reader.at < len(wasm):
        number = reader.take(1)[0]
        sections[number] = Reader(reader.take(reader.number()))
    exports = sections[7]
    found = [exports.export() for _ in range(exports.number())]
    functions = [name for name, kind in found if kind == 0]
    if 2 in sections or functions != ["exact_answer"] or ("memory", 2) not in found:
        sys.exit(f"translate.py: imports, or other exports than a memory and exact_answer: {found}")


def run(*words):
    ended = subprocess.run([str(word) for word in words], capture_output=True, text=True, check=False)
    if ended.returncode != 0:
        sys.exit(f"translate.py: {words[0]}: {ended.stderr}")


def compile_module(kit, module, allocator, work):
    """The object files of the module and of its heap."""
    clang = kit / "toolchain" / "bin" / "clang"
    run(clang, "--target=x86_64-unknown-linux-gnu", "-x", "ir", module, "-S", "-emit-llvm", "-O0", "-Xclang",
        "-disable-llvm-passes", "-o", work / "x64.ll")
    (work / "wasm.ll").write_text(translated((work / "x64.ll").read_text(encoding="utf-8")), encoding="utf-8")
    run(clang, *FLAGS, "-c", "-O3", "-x", "ir", work / "wasm.ll", "-o", work / "module.o")
    run(clang, *FLAGS, "-c", "-O2", "-ffreestanding", "-nostdinc", "-w", f"-I{allocator}", FOLDER / "heap.c", "-o",
        work / "heap.o")
    return work / "module.o", work / "heap.o"


def main():
    kit, module, allocator = map(pathlib.Path, sys.argv[1:4])
    stack, to = sys.argv[4:]
    with tempfile.TemporaryDirectory() as folder:
        work = pathlib.Path(folder)
        objects = compile_module(kit, module, allocator, work)
        run(kit / "toolchain" / "bin" / "llvm-ar", "rcs", work / "module.a", *objects)
        run(kit / "bin" / "rattle-link", "--target", TARGET, "--toolchain", kit / "toolchain", "--stack", stack, "-o", to,
            work / "module.a")
    check_surface(pathlib.Path(to).read_bytes())


main()
