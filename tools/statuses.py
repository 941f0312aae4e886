#!/usr/bin/env python3
"""Prints what C, Python and Go know of the statuses of the library for C, from the one table c/statuses.txt.

    python3 tools/statuses.py
    python3 tools/statuses.py --check

It writes the statuses of c/paseto.h, the exceptions of bindings/python/src/paseto/_errors.py, the reasons of
bindings/go/reasons.go and the faults of bindings/rust/src/library.rs between the lines that mark them. --check writes nothing: it compares them with the table, and the numbers of the table with those that the crate
paseto_calls is proved to answer. The last line is then 'N passed, M failed'.
"""
import os
import re
import sys
import textwrap

ROOT = os.path.dirname(os.path.dirname(os.path.abspath(__file__)))
TABLE = f"{ROOT}/c/statuses.txt"
HEADER = f"{ROOT}/c/paseto.h"
PYTHON = f"{ROOT}/bindings/python/src/paseto/_errors.py"
GO = f"{ROOT}/bindings/go/reasons.go"
RUST = f"{ROOT}/bindings/rust/src/library.rs"
SOURCE = f"{ROOT}/crates/paseto_calls/src/refusal.rt"
DEFINITION = f"{ROOT}/crates/paseto_calls/specs/Refusal.antt"
# What Python calls those whose names it has for other things.
CLASSES = {"Memory": "NoMemory"}
# The two that are no refusals.
GIVEN = {"Ok": 0, "Room": 1}


def rows():
    """The rows of the table: a heading, or (number, name, comment in C, base class, docstring) of a status."""
    found = []
    for line in open(TABLE, encoding="utf-8"):
        line = line.rstrip("\n")
        if line.startswith("## "):
            found.append(line[3:])
        elif line and not line.startswith("#"):
            number, name, comment, base, text = (part.strip() for part in line.split("|"))
            found.append((int(number), name, comment, base, text))
    return found


def constant(name):
    """The name of a status in C: PASETO_OTHER_VERSION of OtherVersion."""
    odd = {"ChaChaCipherError": "CHACHA_CIPHER_ERROR", "NotUtf8": "NOT_UTF8", "Utf8Error": "UTF8_ERROR", "Rfc3339Date": "RFC3339_DATE",
           "DuplicateTopLevelPayloadClaim": "DUPLICATE", "PayloadBase64Decode": "PAYLOAD_BASE64_DECODE", "FromUtf8Error": "FROM_UTF8_ERROR"}
    return "PASETO_" + odd.get(name, re.sub(r"(?<!^)(?=[A-Z])", "_", name).upper())


def header():
    """The statuses of the header."""
    lines, group = [], []

    def close():
        width = max((len(item) for item, comment in group if comment), default=0)
        lines.extend(f"    {item.ljust(width)} /* {comment} */" if comment else f"    {item}" for item, comment in group)
        group.clear()

    found = rows()
    last = max(row[0] for row in found if isinstance(row, tuple))
    for row in found:
        if isinstance(row, str):
            close()
            lines.append(f"    /* {row} */")
        else:
            number, name, comment, _, _ = row
            group.append((f"{constant(name)} = {number}" + ("," if number < last else ""), comment))
    close()
    return "\n".join(["enum {", *lines, "};"])


def python():
    """The exceptions of the package."""
    classes = []
    for row in rows():
        if isinstance(row, tuple) and row[3]:
            number, name, _, base, text = row
            quoted = textwrap.fill(f'"""{text}"""', 120, initial_indent="    ", subsequent_indent="    ", break_on_hyphens=False)
            classes.append(f"class {CLASSES.get(name, name)}({base}):\n{quoted}\n\n    code = {number}\n")
    return "\n\n".join(classes)


def go():
    """The reasons of the package for Go, and which of them are of a token."""
    found = [row for row in rows() if isinstance(row, tuple) and row[3]]
    width, digits = max(len(row[1]) for row in found), max(len(str(row[0])) for row in found)
    lines = [f"\tErr{name.ljust(width)} Reason = {str(number).ljust(digits)} // {text[0].lower()}{text[1:].rstrip('.')}".replace("``", "")
             for number, name, _, _, text in found]
    refused = "".join(f"\n\t\tErr{row[1]}," for row in found if row[3] in ("Refused", "Forbidden"))
    return "\n".join(["const (", *lines, ")", "", "// isOfToken tells whether the fault lies in the token.",
                      "func (r Reason) isOfToken() bool {", "\tswitch r {", f"\tcase{refused}", "\t\tErrRevoked:",
                      "\t\treturn true", "\t}", "\treturn false", "}", ""]).replace("\tcase\n\t\t", "\tcase ")


def rust():
    """The faults of the crate for Rust; the last status and the one that no call returns have other names there."""
    found = [row for row in rows() if isinstance(row, tuple) and row[3] and row[1] not in ("Other", "Random")]
    return "\n".join(["faults! {", *(f"    {number} = {name}," for number, name, *_ in found), "}"])


def between(path, first, last):
    """The text of a file, and the parts before and behind what stands between two lines."""
    text = open(path, encoding="utf-8").read()
    begin = text.index(first) + len(first)
    end = text.index(last, begin)
    return text[:begin], text[begin:end], text[end:]


PLACES = [
    (HEADER, "/* The statuses, from c/statuses.txt: */\n", "\n\n/* The moment by the system's clock", header),
    (GO, "// The reasons of the library, from c/statuses.txt:\n", "\n// Beside the reasons of the library", go),
    (RUST, "// The statuses, from c/statuses.txt:\n", "\n\n/// Why a token was refused", rust),
    (PYTHON, "# ---- the statuses, from c/statuses.txt\n\n\n", "\n\n# ---- other faults\n", python),
]


def check():
    passed, failed = 0, 0

    def ask(what, good):
        nonlocal passed, failed
        passed, failed = passed + good, failed + (not good)
        if not good:
            print(f"FAILED: {what}")

    for path, first, last, made in PLACES:
        _, found, _ = between(path, first, last)
        ask(f"{os.path.relpath(path, ROOT)} is not that of c/statuses.txt: python3 tools/statuses.py prints it", found == made())
    table = {row[1]: row[0] for row in rows() if isinstance(row, tuple) and row[1] not in GIVEN}
    source = dict(re.findall(r"Refusal::(\w+) => (\d+),", open(SOURCE, encoding="utf-8").read()))
    ask("the numbers of refusal.rt", {name: int(number) for name, number in source.items()} == table)
    definition = dict(re.findall(r"^status_of (\w+) = (\d+)$", open(DEFINITION, encoding="utf-8").read(), re.M))
    ask("the numbers of Refusal.antt", {name: int(number) for name, number in definition.items()} == table)
    numbers = sorted([*table.values(), *GIVEN.values()])
    ask("the numbers of the table, one each from 0 on", numbers == list(range(len(numbers))))
    print(f"{passed} passed, {failed} failed")
    return failed == 0


def main():
    if sys.argv[1:] == ["--check"]:
        sys.exit(0 if check() else 1)
    if sys.argv[1:]:
        sys.exit(__doc__.split("\n")[2].strip())
    for path, first, last, made in PLACES:
        front, _, rest = between(path, first, last)
        with open(path, "w", encoding="utf-8") as file:
            file.write(front + made() + rest)


if __name__ == "__main__":
    main()
