#!/usr/bin/env python3
"""Compares the examples of doc comments with the code of test_doc_examples, which the gate proves and runs.

Each block that a `///` or `//!` comment opens by ```rust stands there word for word, line after line in one file of
src/, and begins with its `use` lines; each that it opens by ```text, in one file of specs/. One example stands in a
test of test_cases in place of it. A block in C is no code of a crate.

In README, docs/GUIDE.md and docs/SCHEMES.md each paragraph of a block that ```rust opens stands so in one file of
paseto_example or test_doc_examples, but for its indentation. Each other block of README is run by a script, which takes
it from there by tests/readme.py.

One line tells each example; the last line is 'N passed, M failed', and the status is 0 where none failed.
"""

import pathlib
import re
import sys
import textwrap

ROOT = pathlib.Path(__file__).resolve().parent.parent
CRATES = ROOT / "crates"
PROVED = "test_doc_examples"
GUIDES = ["README.md", "docs/GUIDE.md", "docs/SCHEMES.md"]
# The other blocks of README: their languages, words of them, and the scripts that run them.
RUN = [
    ("sh", "keygen", "tests/paseto.sh"),
    ("python", "import paseto", "tests/python.sh"),
    ("rust", "fn main", "tests/rust.sh"),
    ("c", "#include <paseto.h>", "tests/c_library.sh"),
    ("sh", "first.c", "tests/c_library.sh"),
    ("sh", "bash .ci/run", None),
]
# The example that hands a boxed validator out, which the gate takes in tests alone.
TESTED = CRATES / "test_cases/src/defaults/at_most.rt"
COMMENT = re.compile(r"\s*//[/!] ?(.*)")


def blocks(source):
    """The blocks of a file's doc comments: the line where each begins, its language, and its lines."""
    opened = None
    for number, line in enumerate(source.read_text(encoding="utf-8").splitlines(), 1):
        comment = COMMENT.fullmatch(line)
        if comment is None:
            if opened:
                yield opened
            opened = None
        elif comment[1].startswith("```"):
            if opened:
                yield opened
            opened = None if opened else (number, comment[1][3:].strip(), [])
        elif opened:
            opened[2].append(comment[1])


def proved(folder, suffix):
    files = [*sorted((CRATES / PROVED / folder).rglob("*" + suffix)), *([TESTED] if folder == "src" else [])]
    return {file.relative_to(CRATES): file.read_text(encoding="utf-8").splitlines() for file in files}


def found(wanted, files):
    """The file in which the lines stand one after another."""
    for file, lines in files.items():
        if any(lines[start : start + len(wanted)] == wanted for start in range(len(lines))):
            return file
    return None


def fault(language, lines, file):
    if language not in ("rust", "text"):
        return f"it is opened by ```{language}"
    if not re.match(r"(ghost )?use |-- ", lines[0] if lines else ""):
        return "it does not begin with its `use` lines"
    if file is None:
        return f"it stands in no file of {PROVED}"
    return None


def paragraphs(guide):
    """The paragraphs of a guide's blocks in Rattle: the line where each block begins, and the lines."""
    text = (ROOT / guide).read_text(encoding="utf-8")
    for block in re.finditer(r"^```rust\n(.*?)^```$", text, re.M | re.S):
        if "fn main()" not in block[1]:
            for paragraph in block[1].strip("\n").split("\n\n"):
                yield text.count("\n", 0, block.start()) + 1, textwrap.dedent(paragraph).split("\n")


def in_guides():
    """Whether each paragraph of the guides stands in a file that is proved and run."""
    sources = sorted(path for crate in ("paseto_example", PROVED) for path in (CRATES / crate / "src").rglob("*.rt"))
    texts = {path: [line.strip() for line in path.read_text(encoding="utf-8").splitlines()] for path in sources}
    for guide in GUIDES:
        for number, lines in paragraphs(guide):
            file = found([line.strip() for line in lines], texts)
            place = file.relative_to(CRATES) if file else "it stands in no proved file"
            yield f"{guide}:{number}: {place}", file is not None


def in_readme():
    """Whether each block of README is Rattle, or is run by a script."""
    text = (ROOT / "README.md").read_text(encoding="utf-8")
    for block in re.finditer(r"^```(\w*)\n(.*?)^```$", text, re.M | re.S):
        number = text.count("\n", 0, block.start()) + 1
        script = next((run for run in RUN if run[0] == block[1] and run[1] in block[2]), None)
        if script is None and block[1] == "rust":
            continue
        taken = script and script[2] and (ROOT / script[2]).read_text(encoding="utf-8")
        is_run = script is not None and (taken is None or f'readme.py" {block[1]}' in taken)
        yield f"README.md:{number}: {(script[2] or 'the gate') if is_run else 'no script runs it'}", is_run


def main():
    files = {"rust": proved("src", ".rt"), "text": proved("specs", ".antt")}
    passed, failed, named = 0, 0, set()
    for source in sorted(CRATES.glob("*/src/**/*.rt")):
        for number, language, lines in blocks(source):
            if language == "c":
                continue
            file = found(lines, files.get(language, {})) if lines else None
            named.add(file)
            wrong = fault(language, lines, file)
            print(f"{source.relative_to(CRATES)}:{number}: {wrong or file}")
            passed, failed = passed + (wrong is None), failed + (wrong is not None)
    for file in [*files["rust"], *files["text"]]:
        if file not in named and file.name not in ("main.rt", "everyday.rt", "Lib.antt"):
            print(f"{file}: it is the example of no doc comment")
            failed += 1
    for line, is_there in [*in_guides(), *in_readme()]:
        print(line)
        passed, failed = passed + is_there, failed + (not is_there)
    print(f"{passed} passed, {failed} failed")
    return 1 if failed else 0


if __name__ == "__main__":
    sys.exit(main())
