#!/usr/bin/env python3
"""retarget.py [aarch64] < X86.ll > OTHER.ll   makes the text of a module of LLVM that the toolchain wrote for x86-64 one for wasm64, or
for aarch64.

On all three, pointers have 64 bits, bytes go low to high, and structs have the same layout. So what changes is the triple, the data
layout, and the attributes that speak of a processor. A module that has anything not listed here is refused: the lists hold what the
toolchain writes, and nothing of it means another thing on the others.
"""

import re
import sys

# Of each processor its triple and its data layout.
TARGETS = {
    "wasm64": ("wasm64-unknown-unknown", "e-m:e-p:64:64-p10:8:8-p20:8:8-i64:64-i128:128-n32:64-S128-ni:1:10:20"),
    "aarch64": ("aarch64-unknown-linux-gnu", "e-m:e-p270:32:32-p271:32:32-p272:64:64-i8:8:32-i16:16:32-i64:64-i128:128-n32:64-S128-Fn32"),
}
OLD_LAYOUT = "e-m:e-p270:32:32-p271:32:32-p272:64:64-i64:64-i128:128-f80:128-n8:16:32:64-S128"
OLD_TRIPLE = "x86_64-unknown-linux-gnu"

INSTRUCTIONS = set(
    "add sub mul udiv sdiv urem srem shl lshr ashr and or xor icmp fcmp fneg fadd fsub fmul fdiv zext sext trunc bitcast ptrtoaddr "
    "ptrtoint inttoptr uitofp sitofp fptoui fptosi fpext fptrunc select phi freeze extractvalue insertvalue extractelement insertelement "
    "shufflevector alloca load store getelementptr call br switch ret unreachable".split()
)
# Of each, the part of its name before the types.
INTRINSICS = set(
    "memcpy memmove memset trap ctlz cttz ctpop bswap arithmetic.fence fabs fma assume expect umul.with.overflow smul.with.overflow "
    "uadd.with.overflow sadd.with.overflow usub.with.overflow ssub.with.overflow umin umax smin smax abs fshl fshr fptoui.sat fptosi.sat "
    "uadd.sat usub.sat sadd.sat ssub.sat lifetime.start lifetime.end vector.reduce.or vector.reduce.and vector.reduce.add".split()
)
# Attributes of functions that concern no processor, and those that do and go. The sanitizer's go too.
KEPT = set(
    "nounwind cold noreturn nocallback nofree nosync willreturn speculatable nocreateundeforpoison nobuiltin noinline alwaysinline "
    "inlinehint norecurse mustprogress minsize optsize hot noalias readnone readonly builtin".split()
)
DROPPED = {"sanitize_address", "sanitize_thread", "uwtable"}
DROPPED_STRINGS = {"frame-pointer", "probe-stack", "stack-probe-size", "target-cpu", "target-features", "tune-cpu"}
NONE = '"none"'
FOR_AARCH64 = {
    "probe-stack": lambda it: ['"frame-pointer"="non-leaf"', it],
    "stack-probe-size": lambda it: [it],
    "target-cpu": lambda _: ['"target-cpu"="generic"'],
}

# The steps on the counts of handles of shared maps: of 64 bits, and in one order with all others; and the empty code around them, past
# which the compiler moves no access to memory. In a module of WebAssembly, which has one thread, the compiler makes plain steps of them.
ATOMIC = re.compile(
    r'  call void asm sideeffect "", "~\{memory\}"\(\)(?: #\d+)?$|'
    r"  %[\w.]+ = (?:atomicrmw sub ptr %\w+, i64 %\w+ seq_cst|load atomic i64, ptr %\w+ seq_cst|"
    r"cmpxchg ptr %\w+, i64 %\w+, i64 %\w+ seq_cst seq_cst), align 8$"
)
# Nothing else in the toolchain's modules has these: code of one processor, several threads, exceptions, pointers to functions.
REFUSED = re.compile(r"\b(?:asm|atomic|volatile|x86_fp80|fp128|ppc_fp128|x86_amx|byval|inalloca|preallocated|sret|swifterror)\b|addrspace\(|\btoken\b")

DEFINE = re.compile(r"define (?:internal |private |hidden )?(?!thread_local)")
GLOBAL = re.compile(r"@[^ ]+ = (?:private |internal )?(?:unnamed_addr )?(?:constant|global) ")
BODY = re.compile(r"  (?:%(?:[\w.$-]+|\"[^\"]*\") = )?(\w+)\b")
CALL = re.compile(r"call [^@%]*@")
STRINGS = re.compile(r'c?"(?:[^"\\]|\\.)*"')
ATTRIBUTES = re.compile(r"attributes (#\d+) = \{ (.*) \}$")
ATTRIBUTE = re.compile(r'"([\w-]+)"(?:="[^"]*")? ?|(memory|allocsize|allockind)\([^)]*\) ?|([a-z_]+) ?')


def refuse(line, why):
    """Ends the program."""
    sys.exit(f"retarget: {why}: {line.strip()[:200]}")


def attributes(line, processor):
    """A line of attributes, without those of a processor; for aarch64 with those that the toolchain writes for it, which has the stack probed."""
    found = ATTRIBUTES.match(line) or refuse(line, "these attributes are not known")
    kept, at = [], 0
    while at < len(found[2]):
        one = ATTRIBUTE.match(found[2], at) or refuse(line, "these attributes are not known")
        at = one.end()
        string, _, word = one.groups()
        if processor == "aarch64" and string in FOR_AARCH64:
            kept += FOR_AARCH64[string](one[0].strip())
        if word in DROPPED or string in DROPPED_STRINGS:
            continue
        if string or (word and word not in KEPT):
            refuse(one[0], "this attribute is not known")
        kept.append(one[0].strip())
    # (a group of none is not read)
    return f"attributes {found[1]} = {{ {' '.join(kept or [NONE])} }}"


def check_instruction(line):
    """Refuses an instruction that is not known, or a call that names no function."""
    found = BODY.match(line)
    if not found or found[1] not in INSTRUCTIONS:
        refuse(line, "this instruction is not known")
    if found[1] == "call" and not CALL.search(line):
        refuse(line, "this calls no function by its name")


def check_intrinsics(line):
    """Refuses an intrinsic that is not known."""
    for name in re.findall(r"@llvm\.([a-z0-9_.]+)", line):
        if not any(name == it or name.startswith(f"{it}.") for it in INTRINSICS):
            refuse(line, "this intrinsic is not known")


def is_in_switch(line):
    """Whether it is a line of a switch's table."""
    return re.match(r"    i\d+ -?\d+, label %|    i1 (?:true|false), label %|  \]", line)


def in_body(line):
    """A line of a function's body, which must be known."""
    if line == "" or is_in_switch(line) or re.match(r'(?:[\w.$-]+|"[^"]*"):', line) or line == "}":
        return line
    check_instruction(line)
    check_intrinsics(line)
    return line


def outside(line, processor):
    """A line outside of functions."""
    if line.startswith("target "):
        triple, layout = TARGETS[processor]
        swapped = {f'target datalayout = "{OLD_LAYOUT}"': f'target datalayout = "{layout}"', f'target triple = "{OLD_TRIPLE}"': f'target triple = "{triple}"'}
        return swapped.get(line) or refuse(line, "this target is not known")
    if line.startswith("attributes "):
        return attributes(line, processor)
    check_intrinsics(line)
    if line == "" or line[0] in ";!" or line.startswith(("source_filename", "declare ")) or GLOBAL.match(line) or DEFINE.match(line):
        return line
    return refuse(line, "this is not known")


def retargeted(lines, processor="wasm64"):
    """The lines of the module for a processor."""
    is_inside = False
    for line in lines:
        line = line.rstrip("\n")
        if is_inside and ATOMIC.match(line):
            yield line
            continue
        if found := REFUSED.search(STRINGS.sub("", line).partition(";")[0]):
            refuse(line, f"there is no {found[0]} in what the toolchain writes")
        yield in_body(line) if is_inside else outside(line, processor)
        is_inside = (is_inside or line.startswith("define ")) and line != "}"


if __name__ == "__main__":
    for line in retargeted(sys.stdin, *sys.argv[1:]):
        print(line)
