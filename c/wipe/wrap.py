#!/usr/bin/env python3
"""Puts around each export of the library a function that calls it, and then wipes the stack that it used, and the registers.

    wrap.py OBJECT.o WRAPPERS.c HEADER

Each export X of the object becomes proved_X, and WRAPPERS.c has a function with its name and the header's prototype, but for what
pointers point to. How deep to wipe is read from the machine code. The functions that recursion reaches become proved_deep_N:
return addresses into their code are on the stack as deep as recursion went. An export that takes nothing has no secret, and stays
as it is.
"""
import re
import subprocess
import sys

from stack_depth import Depths, exports

# For a leaf's red zone.
MARGIN = 256

RANGE = """
/* Their code, and what the linker laid between them. */
static uintptr_t low = UINTPTR_MAX;
static size_t length;

__attribute__((constructor(101))) static void find(void) {
    uintptr_t high = 0;
    for (size_t i = 0; i < sizeof deep / sizeof deep[0]; i++) {
        uintptr_t at = (uintptr_t)deep[i].at;
        if (at < low) low = at;
        if (at + deep[i].size > high) high = at + deep[i].size;
    }
    length = high - low;
}
"""


def prototypes(header):
    """name -> (what it returns, its parameters), as the preprocessor leaves them."""
    text = subprocess.run(["cc", "-E", "-P", header], capture_output=True, text=True, check=True).stdout
    found = re.findall(r"^(\w+) (paseto_\w+)\(([^()]*)\);", text, re.M)
    return {name: (result, " ".join(parameters.split())) for result, name, parameters in found}


def objcopy(obj, *options):
    if options:
        subprocess.run(["objcopy", *options, obj], check=True)


def sizes(obj):
    lines = subprocess.run(["nm", "-S", obj], capture_output=True, text=True, check=True).stdout.splitlines()
    return {m[2]: int(m[1], 16) for it in lines if (m := re.match(r"[0-9a-f]+ ([0-9a-f]+) [tTwW] (.*)$", it))}


def up(n):
    return -(-n // 64) * 64


def wrapped(of, header):
    """The exports to wrap, with their prototypes."""
    known = prototypes(header)
    unknown = [it for it in exports(of) if it not in known]
    if unknown:
        sys.exit(f"the header does not declare {' '.join(unknown)}")
    return {it: known[it] for it in exports(of) if known[it][1] != "void"}


def wrapper(of, name, result, parameters):
    kinds, words = [], []
    for it in parameters.split(", "):
        kind, word = re.fullmatch(r"(.*?)(\w+)", it).groups()
        kinds.append(f"void *{word}" if "*" in kind else it)
        words.append(word)
    recursion = f"low, length, {up(of.window)}, {up(of.window + MARGIN)}" if name in of.recurs else "0, 0, 0, 0"
    rest = f"{up(of.plain[name] + MARGIN)}, {recursion}"
    call, taken = f"proved_{name}({', '.join(words)})", ", ".join(kinds)
    body = f"{call};\n    wipe_void(0, {rest})" if result == "void" else f"return wipe_{result}({call}, {rest})"
    return f"{result} proved_{name}({taken});\n{result} {name}({taken});\n{result} {name}({taken}) {{\n    {body};\n}}\n"


def write(of, known, size, file):
    say = lambda *it: print(*it, file=file)
    say("#include <stddef.h>\n#include <stdint.h>\n\ntypedef uint8_t paseto_status;\n")
    # The one function by the type of each result, so that the wrappers can end in a jump to it.
    for it in sorted({result for result, _ in known.values()}):
        given = "size_t" if it == "void" else it
        say(f"{it} wipe_{it}({given} result, size_t depth, uintptr_t low, size_t length, size_t window, size_t after)"
            ' __asm__("proved_wipe");')
    if of.deep:
        for i, it in enumerate(of.deep):
            say(f"extern const char proved_deep_{i}[]; /* {it.replace('*/', '')} */")
        say("static const struct {\n    const char *at;\n    size_t size;\n} deep[] = {")
        for i, it in enumerate(of.deep):
            say(f"    {{proved_deep_{i}, {size[it]}}},")
        say("};" + RANGE)
    for name, (result, parameters) in known.items():
        say(wrapper(of, name, result, parameters))


def main():
    obj, wrappers, header = sys.argv[1:]
    sys.setrecursionlimit(100000)
    of = Depths(obj)
    known = wrapped(of, header)
    with open(wrappers, "w", encoding="utf-8") as file:
        write(of, known, sizes(obj), file)
    renamed = {it: f"proved_{it}" for it in known} | {it: f"proved_deep_{i}" for i, it in enumerate(of.deep)}
    # The linker lays sections of this name apart from the others.
    sections = [it for it in of.code.sections if it.startswith(".text.unlikely")]
    objcopy(obj, *(f"--globalize-symbol={it}" for it in of.deep),
            *(f"--rename-section={it}=.text.proved_{i}" for i, it in enumerate(sections)))
    objcopy(obj, *(f"--redefine-sym={old}={new}" for old, new in renamed.items()))
    print(f"{len(known)} exports are wrapped, the deepest {max(of.plain[it] for it in known)} bytes before it recurs")


if __name__ == "__main__":
    main()
