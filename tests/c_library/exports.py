#!/usr/bin/env python3
"""Lists the exports for C, and fails where one asks something of its caller.

    exports.py FOLDER

The sources of the folder are read: an export is a function `pub extern "C" fn`. No proof can hold a caller in C to a
`requires`, so that an export may have none, and each parameter is one that C can hand over whatever its value: a slice of
bytes or of structs, a number, a place for a number or for a struct, a struct of slices and numbers, or the allocator, for which C hands over nothing. Each must be a symbol of its own
name (`#[unsafe(no_mangle)]`). Standard output has the names, one a line.
"""

import pathlib
import re
import sys

FREE = {"Global", "&[u8]", "&mut [u8]", "&mut usize", "i64", "u8", "&HeldKey", "&mut HeldKey", "&[HeldKey]", "&AdmitOptions<'_>"}
HEAD = re.compile(r'(?P<before>(?:^#\[[^\n]*\]\n)*)^pub extern "C" fn (?P<name>\w+)\((?P<words>[^)]*)\)(?P<clauses>.*?)^\{', re.M | re.S)


def main() -> int:
    """Reads the sources, and says what is wrong."""
    names, faults = [], []
    for source in sorted(pathlib.Path(sys.argv[1]).rglob("*.rt")):
        text = source.read_text()
        found = list(HEAD.finditer(text))
        if len(found) != len(re.findall(r'\bextern\s+"C"\s+fn\b', text)):
            faults.append(f"{source}: an export is not read")
        for export in found:
            name = export["name"]
            names.append(name)
            if "#[unsafe(no_mangle)]" not in export["before"]:
                faults.append(f"{name}: no symbol of this name")
            if re.search(r"\brequires\b", export["clauses"]):
                faults.append(f"{name}: has a requires, which C cannot meet")
            if not re.search(r"\bensures\b", export["clauses"]):
                faults.append(f"{name}: says nothing of its answer")
            for word in filter(None, (word.strip() for word in export["words"].split(","))):
                kind = word.partition(":")[2].strip()
                if kind not in FREE:
                    faults.append(f"{name}: asks C for {word}")
    print("\n".join(sorted(names)))
    for fault in faults:
        print(fault, file=sys.stderr)
    return len(faults) > 0 or not names


if __name__ == "__main__":
    sys.exit(main())
