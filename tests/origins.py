#!/usr/bin/env python3
"""Counts where the libraries and the programs make up a refusal of memory, or a failure of input and output.

No contract says that memory was refused where `Memory` is answered: a refusal has no relation. So each place
that writes down such an error, and does not hand on one that it was given, stands in tests/origins.txt, with
its line; this script fails for a place more and for a place less. It sees a value by its name, `AllocError`,
`InputOrOutput` or, in the library for C, `Refusal::Memory`, and a request that is made in order to fail by its size
(`with_capacity(alloc, usize::MAX)`), in the sources that are no tests.
"""

import pathlib
import re
import sys

ROOT = pathlib.Path(__file__).resolve().parent.parent
TESTING = {
    "bench_calls",
    "test_bench",
    "test_cases",
    "test_doc_examples",
    "paseto_example",
    "test_memory",
    "test_rows",
    "test_toys",
    "test_vectors",
}
# Where the names stand for a type, or are matched: an import, a type's argument, a type behind a colon, a
# variant's declaration, an arm of a match.
NO_VALUE = re.compile(
    r"^\s*(pub )?use .*|[,<] ?AllocError>|: &?AllocError\b|type \w+ = AllocError;"
    r"|^\s*Memory\(AllocError\),|AllocError, \w+\};|\{AllocError\b"
    r"|^\s*InputOrOutput,|InputOrOutput \||\| \w+::InputOrOutput|InputOrOutput =>|Refusal::Memory =>|Memory\(_\) => Refusal::Memory,"
)
VALUE = re.compile(
    r"\b(AllocError|InputOrOutput|Refusal::Memory)\b"
    r"|(capacity|reserve\w*|resize|allocate\w*)\(.*(\bMAX\b|\b\d[\d_]{6,})"
)


def places():
    for source in sorted(ROOT.glob("crates/*/src/**/*.rt")):
        path = source.relative_to(ROOT / "crates")
        if path.parts[0] in TESTING or "tests" in path.parts or path.name == "tests.rt":
            continue
        for line in source.read_text(encoding="utf-8").splitlines():
            code = line.split("//")[0].rstrip()
            if re.match(r"\s*(ghost|ensures|requires|fn .*->|\)\s*->)", code):
                continue
            if VALUE.search(NO_VALUE.sub("", code)):
                yield f"{path}: {code.strip()}"


def main():
    wanted = (ROOT / "tests" / "origins.txt").read_text(encoding="utf-8").splitlines()
    found = list(places())
    more = [it for it in found if found.count(it) > wanted.count(it)]
    less = [it for it in wanted if wanted.count(it) > found.count(it)]
    for it in more:
        print(f"not in tests/origins.txt: {it}")
    for it in less:
        print(f"no longer there: {it}")
    failed = len(more) + len(less)
    print(f"{len(wanted) - len(less)} passed, {failed} failed")
    return 1 if failed else 0


if __name__ == "__main__":
    if sys.argv[1:] == ["--list"]:
        print("\n".join(places()))
    else:
        sys.exit(main())
