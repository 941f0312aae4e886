#!/usr/bin/env python3
"""Makes the pages of docs/api from the doc comments and signatures of the libraries: a page for each crate, and an index.

    python3 tools/api.py            writes the pages
    python3 tools/api.py --check    compares them with what would be written, and changes nothing

A page has each public item of its crate: what the doc comment says of it, its signature without its contract, the variants of
enums, the public fields of structs, and the methods of types and traits. With --check a line tells each page; the last
line is 'N passed, M failed', and the status is 0 where none failed.
"""
import os
import re
import sys

ROOT = os.path.dirname(os.path.dirname(os.path.abspath(__file__)))
PAGES = f"{ROOT}/docs/api"
# The libraries that others call, in the order of the index.
CRATES = [
    "rusty_paseto", "rusty_paseto_generic", "rusty_paseto_claims", "rusty_paseto_core", "rusty_paseto_parts",
    "paseto_base64", "rusty_paseto_paserk", "paseto_wrapping", "paseto_key_files", "paseto_keys",
    "paseto_pem", "paseto_xchacha20poly1305", "paseto_ed25519", "paseto_p384", "paseto_rsa",
    "rusty_paseto_primitives", "paseto_x25519", "paseto_argon2", "paseto_der",
]
ITEM = re.compile(r"(?:pub )?(?:final )?(?:const )?(fn|struct|enum|trait|type|const) (\w+)")
IMPL = re.compile(r"impl\b(?:<.*?>)? (?:(.+?) for )?([\w:]+)")
# What ends a signature: the contract, the conditions of a `where`, the body, or the end of the item.
CONTRACT = re.compile(r"\s*(requires|ensures|decreases|where|ghost)\b")


class Item:
    """A public item: its kind, its name, its signature, its doc comment, and what stands in it."""

    def __init__(self, kind, name, signature, doc):
        self.kind, self.name, self.signature, self.doc, self.parts = kind, name, signature, doc, []


def sources(crate):
    """The crate's source files, but for its tests."""
    for folder, folders, files in os.walk(f"{ROOT}/crates/{crate}/src"):
        folders.sort()
        yield from (f"{folder}/{file}" for file in sorted(files) if file.endswith(".rt"))


def signature_of(lines, at):
    """The signature that begins in a line, without its contract and its body."""
    found = []
    for line in lines[at:]:
        if CONTRACT.match(line) and found:
            break
        head = re.split(r" ?\{\}?$|;$", line.rstrip())[0]
        found.append(head)
        if head != line.rstrip():
            break
        if line.strip() == "{":
            found.pop()
            break
    text = "\n".join(found).rstrip()
    return re.sub(r"^\s{4}", "", text, flags=re.M) if text.startswith("    ") else text


def doc_above(lines, at):
    """The doc comment above a line, past attributes and the note that derives are."""
    doc, line = [], at - 1
    while line >= 0 and lines[line].strip().startswith(("#[", "///", ")]")):
        if lines[line].strip().startswith("///"):
            doc.insert(0, lines[line].strip()[3:].removeprefix(" "))
        line -= 1
    return doc


def members(lines, at, indent, is_open):
    """What stands in the braces of a trait, an impl, an enum or a struct that begins in a line."""
    line, end = at, " " * indent + "}"
    while line < len(lines) and not lines[line].rstrip().endswith("{"):
        line += 1
    for number in range(line + 1, len(lines)):
        if lines[number].startswith(end):
            return
        text = lines[number][indent + 4 :] if lines[number].startswith(" " * (indent + 4)) else ""
        if not text or text[0] == " ":
            continue
        if is_open(text):
            yield number, text


def read_file(path, items, methods):
    """The items of a file, and the methods of the types that it implements."""
    with open(path, encoding="utf-8") as file:
        lines = file.read().split("\n")
    for number, line in enumerate(lines):
        if line.startswith("impl"):
            read_impl(lines, number, methods)
            continue
        found = ITEM.match(line) if line.startswith("pub ") else None
        if not found:
            continue
        item = Item(found[1], found[2], signature_of(lines, number), doc_above(lines, number))
        item.parts = list(parts_of(item, lines, number))
        items.setdefault(item.name, item)


def parts_of(item, lines, number):
    """The methods of a trait, the variants of an enum, and the public fields of a struct."""
    if item.kind == "trait":
        for at, text in members(lines, number, 0, lambda text: re.match(r"(final )?fn ", text)):
            yield Item("fn", ITEM.match(text)[2], signature_of(lines, at), doc_above(lines, at))
    elif item.kind == "enum":
        for at, text in members(lines, number, 0, lambda text: re.match(r"[A-Z]\w*", text)):
            yield Item("variant", re.match(r"\w+", text)[0], text.rstrip(","), doc_above(lines, at))
    elif item.kind == "struct" and lines[number].rstrip().endswith("{"):
        for at, text in members(lines, number, 0, lambda text: text.startswith("pub ")):
            yield Item("field", re.match(r"pub (\w+)", text)[1], text.rstrip(","), doc_above(lines, at))


def read_impl(lines, number, methods):
    """The public methods of an impl, and the traits that are implemented."""
    head = " ".join(line.strip() for line in lines[number : number + 3])
    found = IMPL.match(head.split(" {")[0].split(" where")[0])
    if not found:
        return
    name = found[2].split("::")[-1]
    if found[1]:
        methods.setdefault(name, []).append(Item("impl", found[1], "", []))
        return
    for at, text in members(lines, number, 0, lambda text: re.match(r"pub (const )?fn ", text)):
        methods.setdefault(name, []).append(Item("fn", ITEM.match(text)[2], signature_of(lines, at), doc_above(lines, at)))


def exports(text, crate):
    """The names that a crate's root file shows of its own, and the public modules."""
    names = []
    for path, many, one in re.findall(r"^pub use ([\w:]+)::(?:\{([^}]*)\}|(\w+));", text, re.M):
        if path.split("::")[0] in CRATES or path.split("::")[0] in ("crate", "std"):
            continue
        names += [it.strip().split(" as ")[-1] for it in (many or one).split(",") if it.strip()]
    return names, [it for it in re.findall(r"^pub mod (\w+);", text, re.M) if it != "prelude"]


def heading(item, level, owner=""):
    """An item's heading, signature and doc comment."""
    shown = f"{owner}::{item.name}" if owner else item.name
    lines = [f"{'#' * level} `{shown}`", ""]
    if item.signature:
        lines += ["```rust", item.signature, "```", ""]
    return [*lines, *sections(item.doc, level), *([""] if item.doc else [])]


def sections(doc, level):
    """A doc comment, whose headings are put below that of its item."""
    return [f"{'#' * (level + 1)} {line.lstrip('# ')}" if line.startswith("# ") else line for line in doc]


def written(item, methods, level=2):
    """The lines of an item on its page."""
    lines = heading(item, level)
    short = [part for part in item.parts if part.kind in ("variant", "field")]
    for part in short:
        lines.append(f"- `{part.signature}`: {' '.join(part.doc)}" if part.doc else f"- `{part.signature}`")
    lines += [""] if short else []
    for part in item.parts:
        if part.kind == "fn":
            lines += heading(part, level + 1, item.name)
    own = methods.get(item.name, []) if item.kind in ("struct", "enum") else []
    for part in own:
        if part.kind == "fn":
            lines += heading(part, level + 1, item.name)
    traits = sorted({part.name for part in own if part.kind == "impl" and part.name != "Model"})
    if traits:
        lines += [f"Implements {', '.join(f'`{it}`' for it in traits)}.", ""]
    return lines


def page_of(crate):
    """The page of a crate, and what it says first."""
    with open(f"{ROOT}/crates/{crate}/src/lib.rt", encoding="utf-8") as file:
        root = file.read()
    about = [line[3:].removeprefix(" ") for line in root.split("\n") if line.startswith("//!")]
    items, methods, in_modules = {}, {}, {}
    for path in sources(crate):
        read_file(path, items, methods)
    names, modules = exports(root, crate)
    proved = f"The contracts of these calls: [promises](promises/{crate}.md), and [what their terms mean](definitions/{crate}.md)."
    lines = [f"# {crate}", "", *sections(about, 1), "", proved, ""]
    for name in sorted(set(names), key=str.lower):
        if name in items:
            lines += written(items[name], methods)
    for module in modules:
        shown, about_module = {}, []
        for path in sources(crate):
            part = os.path.relpath(path, f"{ROOT}/crates/{crate}/src").removesuffix(".rt").split("/")
            if part[0] == module:
                read_file(path, shown, {})
                with open(path, encoding="utf-8") as file:
                    about_module = about_module or [it[3:].strip() for it in file if it.startswith("//!")]
        in_modules[module] = shown
        lines += [f"## The module `{module}`", "", *about_module, ""]
        for name in sorted(shown, key=str.lower):
            lines += written(shown[name], methods, 3)
    text = re.sub(r"\n{3,}", "\n\n", "\n".join(lines)).rstrip() + "\n"
    first = " ".join(about[: about.index("")] if "" in about else about)
    return text, first


def pages():
    """All pages by their names."""
    found, rows = {}, []
    for crate in CRATES:
        text, first = page_of(crate)
        found[f"{crate}.md"] = text
        rows.append(f"- [`{crate}`]({crate}.md): {first}")
    head = "The public calls of the libraries, a page for each crate. `python3 tools/api.py` makes these pages from the doc comments."
    head += "\n\nWhat is proved of each call has [pages of its own](promises/README.md), and so has [what the contracts mean](definitions/README.md)."
    found["README.md"] = f"# The API\n\n{head}\n\n" + "\n".join(rows) + "\n"
    return found


def main():
    made, is_check = pages(), sys.argv[1:] == ["--check"]
    if sys.argv[1:] and not is_check:
        sys.exit(__doc__)
    if not is_check:
        os.makedirs(PAGES, exist_ok=True)
        for name, text in made.items():
            with open(f"{PAGES}/{name}", "w", encoding="utf-8") as file:
                file.write(text)
        return
    passed = failed = 0
    there = {name for name in os.listdir(PAGES) if name.endswith(".md")} if os.path.isdir(PAGES) else set()
    for name in sorted(there | set(made)):
        kept = open(f"{PAGES}/{name}", encoding="utf-8").read() if name in there else None
        is_same = kept == made.get(name)
        print(f"docs/api/{name}: {'fresh' if is_same else 'not what python3 tools/api.py writes'}")
        passed, failed = passed + is_same, failed + (not is_same)
    print(f"{passed} passed, {failed} failed")
    sys.exit(1 if failed else 0)


if __name__ == "__main__":
    main()
