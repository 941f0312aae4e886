#!/usr/bin/env python3
"""How deep the stack of each export goes, from the machine code of the library.

    stack_depth.py OBJECT.o [-v]

A function's frame is what it pushes and what it takes off rsp. An export's depth is the sum of the frames along the longest way of
the call graph, a call through a register leading to each function whose address is taken. How deep recursion goes is known only when
it has run (wipe.S). A frame of a length that the code does not show is an error.
"""
import re
import subprocess
import sys

# What a function outside of the object may use: malloc and memcpy of the C library take some hundred bytes.
OUTSIDE = 2048


class Function:
    def __init__(self, section, start):
        self.section, self.start = section, start
        self.frame, self.calls, self.is_indirect = 0, set(), False


def objdump(obj, *options):
    return subprocess.run(["objdump", *options, obj], capture_output=True, text=True, check=True).stdout.split("\n")


def taken_from_stack(op, words):
    """By how many bytes an instruction moves rsp down, at most."""
    if op.startswith("push"):
        return 8
    if not words.endswith(",%rsp") or op.startswith(("cmp", "test")):
        return 0
    if m := re.match(r"\$(-?)0x([0-9a-f]+),%rsp$", words):
        n = int(m[2], 16) * (-1 if m[1] else 1)
        n = n - (1 << 64) if n >= 1 << 63 else n
        if op.startswith("sub"):
            return n
        if op.startswith("add"):
            return max(-n, 0)
        if op.startswith("and") and n < 0:
            return -n
    elif op.startswith(("mov", "lea")) and re.match(r"(-?0x[0-9a-f]+\()?%r(bp|sp)\)?,%rsp$", words):
        # It goes back to a place of its own frame, or takes what lea says.
        return max(-int(words.split("(")[0], 16), 0) if "(%rsp)" in words else 0
    sys.exit(f"a frame of no fixed length: {op} {words}")


def is_call(op, words):
    """Whether it calls a function whose address it has. A jump by a register leads into a table of the function itself; one by
    memory that no index selects ends in a call."""
    return op.startswith("call") or ("(" in words and "," not in words)


class Code:
    """The functions of an object by name, and those whose address is taken."""

    def __init__(self, obj):
        self.functions, self.sections, self.taken = {}, {}, set()
        self.targets = []
        self.read_code(obj)
        for name, target in self.targets:
            if (found := self.resolved(target)) not in (None, name):
                self.functions[name].calls.add(found)
        self.read_data(obj)

    def read_code(self, obj):
        section, name, words = None, None, ("", "")
        for line in objdump(obj, "-dr", "--no-show-raw-insn"):
            if m := re.match(r"Disassembly of section (.*):$", line):
                section = m[1]
            elif m := re.match(r"([0-9a-f]+) <(.*)>:$", line):
                name = m[2]
                if name in self.functions:
                    sys.exit(f"two functions have the name {name}")
                self.functions[name] = Function(section, int(m[1], 16))
                self.sections.setdefault(section, []).append(name)
            elif m := re.match(r"\s+[0-9a-f]+: R_X86_64_(\S+)\s+(.*)$", line):
                self.read_relocation(name, *words, m[1], m[2])
                words = ("", "")
            elif m := re.match(r"\s+[0-9a-f]+:\s+((?:(?:notrack|bnd|rep|repz|lock|data16|cs) )*)(\S+)\s*(.*)$", line):
                self.close(name, *words)
                words = (m[2], m[3].split("#")[0].strip() if not m[2].startswith(("call", "j")) else m[3])
                self.functions[name].frame += taken_from_stack(m[2], words[1]) if words[1] or m[2].startswith("push") else 0
        self.close(name, *words)

    def close(self, name, op, words):
        """A jump or a call with no relocation: it stays in its section, or goes through a register."""
        if not op.startswith(("call", "j")):
            return
        if "*" in words:
            self.functions[name].is_indirect |= is_call(op, words)
        elif m := re.match(r"([0-9a-f]+)\b", words):
            self.targets.append((name, (self.functions[name].section, int(m[1], 16))))

    def read_relocation(self, name, op, words, kind, symbol):
        m = re.match(r"(.*?)(?:([-+])0x([0-9a-f]+))?$", symbol)
        added = int(m[3] or "0", 16) * (-1 if m[2] == "-" else 1)
        # A relative one is counted from the end of the four bytes that it fills.
        target = (m[1], added + 4 if kind != "64" else added)
        if op.startswith(("call", "j")) and ("*" not in words or "GOTPC" in kind):
            self.targets.append((name, target))
        elif op.startswith(("call", "j")):
            self.functions[name].is_indirect |= is_call(op, words)
        else:
            self.take(target)

    def resolved(self, target):
        """The function at (section or symbol, offset)."""
        name, offset = target
        if name not in self.sections:
            return name
        within = [it for it in self.sections[name] if self.functions[it].start <= offset]
        return max(within, key=lambda it: self.functions[it].start, default=None)

    def take(self, target):
        """Where the beginning of a function is, its address is taken."""
        name, offset = target
        if name in self.sections:
            found = self.resolved(target)
            if found is not None and self.functions[found].start == offset:
                self.taken.add(found)
        elif name in self.functions and offset == 0:
            self.taken.add(name)

    def read_data(self, obj):
        of_data = False
        for line in objdump(obj, "-r"):
            if m := re.match(r"RELOCATION RECORDS FOR \[(.*)\]:$", line):
                of_data = m[1] not in self.sections and not m[1].startswith((".eh_frame", ".debug"))
            elif of_data and (m := re.match(r"[0-9a-f]+ R_X86_64_64\s+(.*?)(?:\+0x([0-9a-f]+))?$", line)):
                self.take((m[1], int(m[2] or "0", 16)))

    def called(self, name):
        it = self.functions[name]
        return it.calls | (self.taken if it.is_indirect else set())

    def components(self):
        """The strongly connected components of the call graph, each after those that it calls (Tarjan's algorithm)."""
        number, low, above, found = {}, {}, [], []

        def visit(name):
            number[name] = low[name] = len(number)
            above.append(name)
            for it in sorted(self.called(name) & self.functions.keys()):
                if it not in number:
                    visit(it)
                if it in above:
                    low[name] = min(low[name], low[it])
            if low[name] == number[name]:
                at = above.index(name)
                found.append(above[at:])
                del above[at:]

        for it in self.functions:
            if it not in number:
                visit(it)
        return found


class Depths:
    """Of each function the longest way without what recurs, and how deep recursion went can be told from the stack.

    plain[F]: how deep F goes as long as nothing recurs. recurs: the functions that reach one that does. deep: those that one that
    recurs reaches. What is below the plain depth of an export is theirs, or of the C library, which they called. So among each
    `window` bytes of it is a return address into the code of one of them (a frame's last call left one at its lower end).
    """

    def __init__(self, obj):
        self.code = Code(obj)
        # Each component stands behind those that it calls.
        components = self.code.components()
        called = {it: self.code.called(it) for it in self.code.functions}
        again = {it for them in components for it in them if len(them) > 1 or it in called[it]}
        self.recurs, deep, self.plain = set(), set(again), {}
        for name in (it for them in components for it in them):
            if name in again or called[name] & self.recurs:
                self.recurs.add(name)
            ways = [8 + self.plain.get(it, OUTSIDE) for it in called[name] if it not in again]
            self.plain[name] = 0 if name in again else self.code.functions[name].frame + max(ways, default=0)
        for name in (it for them in reversed(components) for it in them):
            if name in deep:
                deep.update(called[name] & self.code.functions.keys())
        self.deep = sorted(deep)
        self.window = max((self.code.functions[it].frame for it in deep), default=0) + OUTSIDE + 64


def exports(depths):
    return sorted(it for it in depths.code.functions if re.fullmatch(r"paseto_\w+", it))


if __name__ == "__main__":
    sys.setrecursionlimit(100000)
    of = Depths(sys.argv[1])
    for export in exports(of):
        print(export, of.plain[export], *["and what recurs"] * (export in of.recurs))
    print(f"window {of.window}; {len(of.code.taken)} addresses are taken, and called by "
          f"{sum(it.is_indirect for it in of.code.functions.values())} functions")
    if "-v" in sys.argv:
        print(*of.deep, "taken:", *sorted(of.code.taken), sep="\n")
