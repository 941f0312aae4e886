#!/usr/bin/env python3
"""Prints C in which the calls and structs of bindings/rust/src/library.rs are declared once more, over a header.

    python3 tests/rust_calls.py HEADER

A compiler takes it where the header declares each of them in the same way.
"""
import os
import re
import sys

ROOT = os.path.dirname(os.path.dirname(os.path.abspath(__file__)))
SOURCE = open(f"{ROOT}/bindings/rust/src/library.rs", encoding="utf-8").read()
TYPES = {
    "Bytes": "const void *", "*const u8": "const void *", "*mut u8": "void *", "*mut usize": "size_t *",
    "*const Key": "const struct paseto_key *", "*mut Key": "struct paseto_key *",
    "*const Options": "const struct paseto_options *", "Status": "paseto_status", "usize": "size_t",
    "u8": "uint8_t", "u16": "uint16_t", "u32": "uint32_t", "i64": "int64_t",
}
# What the fields of a struct are called in C, where they have another name there.
NAMES = {"kind": "type"}


def calls():
    """A use of each call, which compiles where the header declares it, and its declaration."""
    block = SOURCE.split('extern "C" {', 1)[1].split("\n}", 1)[0]
    found = re.findall(r"fn (paseto_\w+)\((.*?)\) -> (\w+);", block, re.DOTALL)
    yield f"void calls(void) {{ {' '.join(f'(void){name};' for name, _, _ in found)} }}"
    for name, words, answer in found:
        types = [word.split(": ")[1] for word in re.split(r",\s*", words.strip()) if word]
        yield f"{TYPES[answer]} {name}({', '.join(TYPES[one] for one in types)});"


def struct(name, of):
    """A struct with the same fields, and that they are where those of the header are."""
    body = re.search(rf"#\[repr\(C\)\]\nstruct {name} {{(.*?)}}", SOURCE, re.DOTALL).group(1)
    fields = re.findall(r"(\w+): ([^,;\[]+|\[u8; \d+\]),", body)
    yield f"struct rust_{name} {{"
    for field, kind in fields:
        bytes_of = re.fullmatch(r"\[u8; (\d+)\]", kind)
        yield f"    uint8_t {field}[{bytes_of.group(1)}];" if bytes_of else f"    {TYPES[kind]} {field};"
    yield "};"
    yield f'_Static_assert(sizeof(struct rust_{name}) == sizeof(struct {of}), "{of}");'
    for field, _ in fields:
        there = NAMES.get(field, field)
        yield (f"_Static_assert(offsetof(struct rust_{name}, {field}) == offsetof(struct {of}, {there}) && "
               f"sizeof(((struct rust_{name} *)0)->{field}) == sizeof(((struct {of} *)0)->{there}), \"{of}.{there}\");")


def main():
    if len(sys.argv) != 2:
        sys.exit(__doc__)
    declared = [*calls()]
    if len(declared) < 2:
        sys.exit("library.rs declares no calls")
    declared += [*struct("Key", "paseto_key"), *struct("Options", "paseto_options")]
    print("\n".join([f"#include <{sys.argv[1]}>", *declared]))


main()
