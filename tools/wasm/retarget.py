"""What makes the LLVM module of a build for x86-64 fit for wasm64: three changes, and none of what it does."""
import re

# What names the processor, and what guards the stack of a process.
OF_X86 = re.compile(r' "(?:probe-stack|stack-probe-size|target-cpu|target-features)"="[^"]*"')
# The one instruction of x86-64 that is called by its name: it takes bytes from places, and 0 where a place has its top
# bit set.
SHUFFLE = "@llvm.x86.ssse3.pshuf.b.128("
# `swizzle` gives 0 where the place is above 15: of each place the top bit and the last four are kept.
KEPT_BITS = ", ".join(["i8 -113"] * 16)
SWIZZLE = f"""declare <16 x i8> @llvm.wasm.swizzle(<16 x i8>, <16 x i8>)
define internal <16 x i8> @shuffled(<16 x i8> %bytes, <16 x i8> %places) {{
  %kept = and <16 x i8> %places, <{KEPT_BITS}>
  %result = call <16 x i8> @llvm.wasm.swizzle(<16 x i8> %bytes, <16 x i8> %kept)
  ret <16 x i8> %result
}}"""
# A fence keeps what is computed before it apart from what comes after, which matters only where a sum may be rounded
# otherwise. Nothing in the module allows that, and a sum with -0 is the number itself.
FENCE = re.compile(r"(%\w+) = call double @llvm\.arithmetic\.fence\.f64\(double ([^)]*)\).*")
LOOSE_SUM = re.compile(r" = f\w+ (?:\w+ )*?(?:fast|reassoc|contract|nnan|ninf|nsz|arcp|afn) ")


def retargeted(text):
    """The module's text for wasm64. Where it has what is not known here, that is told by a ValueError."""
    if LOOSE_SUM.search(text):
        raise ValueError("a sum that may be rounded otherwise")
    text = OF_X86.sub("", text)
    text = re.sub(rf"declare <16 x i8> {re.escape(SHUFFLE)}[^)]*\).*", lambda _: SWIZZLE, text)
    text = text.replace(SHUFFLE, "@shuffled(")
    text = FENCE.sub(r"\1 = fadd double \2, -0.0", text)
    known = re.search(r"@llvm\.x86\.[\w.]+", text)
    if known:
        raise ValueError(f"{known.group()} of x86-64")
    return text
