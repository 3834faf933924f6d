"""retarget.py IN.ll OUT.ll NAME..: the LLVM module that the toolchain wrote for x86-64, for wasm64. Only the words about the target change, and the named functions
become exports of the module. Addresses have 64 bits on both, the byte order is the same, and so is each type's layout."""
import re
import sys

LAYOUT = "e-m:e-p:64:64-p10:8:8-p20:8:8-i64:64-i128:128-n32:64-S128-ni:1:10:20"
# Attributes of functions that speak of x86-64, or of what the tools of that target do.
OF_X86 = [r' "probe-stack"="[^"]*"', r' "stack-probe-size"="[^"]*"', r' "target-cpu"="[^"]*"', r' "target-features"="[^"]*"', r' "frame-pointer"="[^"]*"']
OF_X86 += [r" sanitize_address", r" uwtable(\([a-z]+\))?"]
# What can't be carried over by changing words.
UNKNOWN = ["x86_fp80", "llvm.x86.", "asm sideeffect", "addrspace(", "thread_local"]


def export(text, name):
    """The module with this function exported under its own name."""
    head = rf'^(define [^@\n]*@"?{re.escape(name)}"?\(.*?) (#\d+)?( ?(?:align \d+ )?\{{)$'

    def exported(found):
        plain = re.sub(r"^define (?:internal|dso_local|hidden)? ?", "define ", found[1])
        return f'{plain} {found[2] or ""} "wasm-export-name"="{name.rpartition("::")[2]}"{found[3]}'

    text, count = re.subn(head, exported, text, flags=re.M)
    if count != 1:
        sys.exit(f"retarget: {name} is defined {count} times")
    return text


def main(source, target, *names):
    text = open(source, encoding="utf-8").read()
    text = re.sub(r"^target datalayout = .*$", f'target datalayout = "{LAYOUT}"', text, flags=re.M)
    text = re.sub(r"^target triple = .*$", 'target triple = "wasm64-unknown-unknown"', text, flags=re.M)
    for words in OF_X86:
        text = re.sub(words, "", text)
    left = [it for it in UNKNOWN if it in text]
    if left:
        sys.exit(f"retarget: words that can't be carried over: {left}")
    for name in names:
        text = export(text, name)
    text = re.sub(r"^(attributes #\d+ = \{) *\}", r"\1 nounwind }", text, flags=re.M)
    with open(target, "w", encoding="utf-8") as out:
        out.write(text)


main(*sys.argv[1:])
