#!/usr/bin/env python3
"""Looks for secrets in the memory of a process after one call of the library, for each call of cases.py.

    scan.py CALLS LIBRARY [WORD]

CALLS is the program of calls.c, which has wiped its own copies. All its writable memory is read, and with it what the registers held
right after the call, for any 8 bytes in a row of a key, of what is derived from it, and of the text: as they are, in reverse order,
in words of 8 bytes in reverse order, and with each word of 4 bytes twice, as vectors of ChaCha hold a key. The stack below the call
has to be zeros as deep as it was used. With WORD only the calls whose names hold it are asked; without it each export of the
header has to be asked. A line tells what was found of a call, and the last line is 'N passed, M failed'.
"""
import os
import pathlib
import struct
import subprocess
import sys

HERE = pathlib.Path(__file__).resolve().parent
ROOT = HERE.parent.parent
sys.dont_write_bytecode = True
sys.path[:0] = [str(HERE), str(ROOT / "c/wipe")]

from cases import cases  # noqa: E402
from wrap import prototypes  # noqa: E402

HEADER = prototypes(ROOT / "c/paseto.h")
WORDS = 32
# What a struct takes at most, and struct paseto_key.
STRUCT, KEY = 2048, 1248
# How much of the stack calls.c paints before the call, and with what.
PAINTED, PAINT = 262144, 0xA5
# Right below the caller are the return address and registers of the caller that a wrapper saved.
SAVED = 64


class Block:
    """The arguments of a call, in the order of the header's parameters.

    A slice, or a struct, is given under the name of its pointer, as bytes, and is empty, or zeros, where it is not. A buffer for a
    result has 8192 bytes, or as many as are given under its name. A number is given under its name; that of keys is told by their
    bytes.
    """

    def __init__(self, name, given):
        self.name, self.words, self.bytes, self.places = name, [], bytearray(), {}
        self.given = dict(given)
        for parameter in HEADER[name][1].split(", "):
            self.add(*parameter.rsplit(None, 1))
        if unknown := [it for it in self.given if it not in self.places and it[:-7] not in self.places]:
            sys.exit(f"{name} does not take {' '.join(unknown)}")

    def put(self, name, data):
        self.places[name] = (len(self.bytes), len(data))
        self.words.append((1, len(self.bytes)))
        self.bytes += data + bytes(-len(data) % 64)

    def add(self, kind, name):
        pointed = name.startswith("*")
        name = name.lstrip("*")
        if pointed and kind == "size_t":
            self.put(name, bytes(8))
        elif pointed and kind.split()[-1] in ("void", "uint8_t"):
            given = self.given.pop(name, b"" if kind.startswith("const") else 8192)
            self.put(name, bytes(given) if isinstance(given, int) else given)
        elif pointed:
            given = self.given.pop(name, b"")
            self.put(name, given.ljust(STRUCT, b"\0"))
            self.given[f"{name}_length"] = len(given) // KEY
        elif name.endswith("_length") and f"{name}" not in self.given:
            self.words.append((0, self.places[name[:-7]][1]))
        else:
            self.words.append((0, self.given.pop(name, 0) % 2**64))

    def sent(self):
        words = self.words + [(0, 0)] * (WORDS - len(self.words))
        return (self.name.encode().ljust(64, b"\0") + struct.pack(f"<{WORDS}Q", *[kind for kind, _ in words])
                + struct.pack(f"<{WORDS}Q", *[word for _, word in words]) + struct.pack("<Q", len(self.bytes)) + bytes(self.bytes))

    def results(self, after):
        """What the call left in its buffers, by name, and under `written` and such how much of them is the result."""
        found = {}
        for name, (at, n) in self.places.items():
            found[name] = bytes(after[at:at + n])
        if "written" in found:
            found["room"] = found["room"][:struct.unpack("<Q", found["written"][:8])[0]]
        if "key" in found:
            found["key"] = found["key"][:KEY]
        return found


def regions(pid):
    """(name, address, bytes) of all memory that the process can write."""
    with open(f"/proc/{pid}/maps", encoding="utf-8") as maps, open(f"/proc/{pid}/mem", "rb", buffering=0) as memory:
        for line in maps:
            ends, mode, _, _, _, *name = line.split()
            if mode[1] == "w":
                low, high = (int(it, 16) for it in ends.split("-"))
                memory.seek(low)
                yield os.path.basename(name[0]) if name else "anonymous", low, memory.read(high - low)


def ask(program, library, block):
    """The status, the results, the stack pointer, and the memory."""
    with subprocess.Popen([program, library], stdin=subprocess.PIPE, stdout=subprocess.PIPE) as run:
        run.stdin.write(block.sent())
        run.stdin.flush()
        head = run.stdout.read(16)
        if len(head) != 16:
            sys.exit(f"{block.name}: the call did not return")
        status, at = struct.unpack("<QQ", head)
        after = run.stdout.read(len(block.bytes))
        run.stdout.read(1)
        memory = list(regions(run.pid))
        run.stdin.close()
    return status & 0xFF, block.results(after), at, memory


def windows(data):
    return {data[i:i + 8] for i in range(len(data) - 7)}


def windows_of(secret):
    """The windows of a secret, in the forms that are looked for. One of few different bytes may be anything."""
    forms = [secret, secret[::-1]]
    if len(secret) % 8 == 0:
        forms.append(b"".join(secret[i:i + 8][::-1] for i in range(0, len(secret), 8)))
    if len(secret) == 32:
        forms += [secret[i:i + 4] * 2 for i in range(0, 32, 4)]
    return {it for form in forms for it in windows(form) if len(set(it)) > 3}


def found_in(memory, secrets):
    """Of each secret that is in the memory, in how many windows and where."""
    wanted = {name: windows_of(secret) for name, secret in secrets.items()}
    found = {}
    for region, _, data in memory:
        for at in range(0, len(data), 4096):
            page = data[at:at + 4096 + 7]
            if not page.strip(page[:1]):
                continue
            here = windows(page)
            for name, them in wanted.items():
                if them & here:
                    place = "the registers" if region == "calls" else region
                    found.setdefault(name, {}).setdefault(place, set()).update(them & here)
    return [f"{name} ({', '.join(f'{len(them)} windows in {place}' for place, them in at.items())})" for name, at in found.items()]


def left_below(memory, at):
    """How deep below the caller the stack was written, and how many bytes of that are not 0."""
    low, data = next((low, data) for name, low, data in memory if name == "[stack]")
    below = data[at - PAINTED + 1024 - low:at - SAVED - low]
    used = below.lstrip(bytes([PAINT]))
    return len(used) + SAVED, sum(it not in (0, PAINT) for it in used)


def next_of(calls, after):
    """The next case, or None."""
    try:
        return calls.send(after)
    except StopIteration:
        return None


def main():
    program, library, word = (*sys.argv[1:], "")[:3]
    passed, failed, asked = 0, 0, set()
    calls, after = cases(), None
    # A call is told what the one before left in its buffers.
    while case := next_of(calls, after):
        name, export, given, secrets, status = case
        got, after, at, memory = ask(program, library, Block(export, given))
        asked.add(export)
        if word not in name:
            continue
        depth, left = left_below(memory, at)
        found = found_in(memory, secrets)
        faults = [f"status {got} in place of {status}"] * (status is not None and got != status) + found + [f"{left} bytes of its stack"] * (left > 0)
        passed, failed = passed + (not faults), failed + bool(faults)
        print(f"FAILED: {name} left {', '.join(faults)}" if faults else f"{name}: nothing left of {depth} bytes of stack")
    never = [it for it in sorted(HEADER) if it not in asked and HEADER[it][1] != "void"]
    if not word:
        passed, failed = passed + (not never), failed + bool(never)
        if never:
            print(f"FAILED: never asked: {' '.join(never)}")
    print(f"{passed} passed, {failed} failed")
    return failed > 0


if __name__ == "__main__":
    sys.exit(main())
