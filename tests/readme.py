#!/usr/bin/env python3
"""Prints a block of code as it stands in README.md, for the tests that run it.

    python3 tests/readme.py LANGUAGE [WORD]

The block is the first that is opened by ```LANGUAGE and holds WORD.
"""

import pathlib
import re
import sys

README = pathlib.Path(__file__).resolve().parent.parent / "README.md"


def main():
    if len(sys.argv) not in (2, 3):
        sys.exit(__doc__)
    blocks = re.findall(rf"^```{sys.argv[1]}\n(.*?)^```$", README.read_text(encoding="utf-8"), re.M | re.S)
    found = [block for block in blocks if sys.argv[-1] in block or len(sys.argv) == 2]
    if not found:
        sys.exit(f"README.md has no such block: {' '.join(sys.argv[1:])}")
    sys.stdout.write(found[0])


if __name__ == "__main__":
    main()
