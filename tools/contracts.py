#!/usr/bin/env python3
"""Makes the pages of docs/api/definitions and docs/api/promises, a page of each for a crate.

    python3 tools/contracts.py            writes the pages
    python3 tools/contracts.py --check    compares them with what would be written, and changes nothing

A page of definitions has each definition of the crate's specs/: its comment, and the definition itself. A page of
promises has each public call that has a contract: what its doc comment says first, its signature with the contract, and
links to the definitions that the contract names; and the crate's must-fail edits. With --check a line tells each page.
Then it looks at docs/PROMISES.md: each must-fail edit has to be named there, and what its tables name under `Contract` and
`Tests` has to be there. The last line is 'N passed, M failed', and the status is 0 where none failed.
"""
import glob
import os
import re
import sys

sys.dont_write_bytecode = True
ROOT = os.path.dirname(os.path.dirname(os.path.abspath(__file__)))
sys.path.insert(0, f"{ROOT}/tools")
import api  # noqa: E402

PAGES = f"{ROOT}/docs/api"
# The crates of benchmarks and of tests that define nothing of their own.
LEFT_OUT = {"bench_calls", "test_bench", "test_cases", "test_doc_examples", "test_memory", "test_vectors"}
# The libraries that one program alone uses: what their functions promise is what the program does.
OF_PROGRAMS = {"paseto_tasks", "paseto_words"}
# What begins a definition of specs/, and its name. What is lemma and no definition has none of these words.
DEFINITION = re.compile(r"(?:abbrev pub|unfoldable pub|pub record|pub data) ([^\s:({]+)")
USE = re.compile(r"^(?:ghost )?(?:pub )?use Rattle\.(\w+)\.specs\.([\w.]+)\.\{([^}]*)\}", re.M)
FUNCTION = re.compile(r"(?:pub )?(?:final )?(?:const )?(?:extern \"C\" )?fn (\w+)")
CONTRACT = re.compile(r"\s*(requires|ensures|decreases)\b")
# A definition of more lines is shown up to there; the rest of one that is longer is a table.
MOST_LINES = 40
INDEXES = {
    "definitions": ("The definitions", "What the contracts mean, a page for each crate ([how to read them](../../DEFINITIONS.md))."),
    "promises": ("The promises", "What is proved of each public call, a page for each crate ([the main ones](../../PROMISES.md))."),
}


class Definition:
    """Definitions under one comment: their names, the comment, and their lines."""

    def __init__(self, comment):
        self.names, self.comment, self.lines = [], comment, []


class Promise:
    """A call, or what an impl answers its trait: its name, its doc comment, and its contract."""

    def __init__(self, name, doc, contract, source):
        self.name, self.doc, self.contract, self.source = name, doc, contract, source


def crates():
    """The names of the crates, in the order of crates.txt."""
    with open(f"{ROOT}/crates.txt", encoding="utf-8") as file:
        names = re.findall(r"^(\w+)(?: staticlib)?:", file.read(), re.M)
    return [name for name in names if name not in LEFT_OUT]


def read(path):
    with open(path, encoding="utf-8") as file:
        return file.read()


def about(crate):
    """What the crate's root file says first."""
    root = next(path for path in (f"{ROOT}/crates/{crate}/src/{it}.rt" for it in ("lib", "main")) if os.path.exists(path))
    lines = [line[3:].strip() for line in read(root).split("\n") if line.startswith("//!")]
    return " ".join(lines[: lines.index("")] if "" in lines else lines)


def sentence(comment):
    """A comment as a sentence: with a capital letter where it begins with a word, and a full stop."""
    text = " ".join(comment)
    text = text[0].upper() + text[1:] if re.match(r"a |[a-z]{2,}[ ,:]", text) else text
    return text if text.endswith((".", ":")) else f"{text}."


def anchors(names):
    """The anchors of headings, as GitHub writes them: those of one text are counted."""
    made, found = {}, []
    for name in names:
        anchor = re.sub(r"[^\w -]", "", name.lower()).replace(" ", "-")
        found.append(f"{anchor}-{made[anchor]}" if anchor in made else anchor)
        made[anchor] = made.get(anchor, 0) + 1
    return found


# ---- definitions


def spec_files(crate):
    """The files of the crate's specs/, by their names there."""
    folder = f"{ROOT}/crates/{crate}/specs"
    files = sorted(glob.glob(f"{folder}/**/*.antt", recursive=True))
    return {os.path.relpath(path, folder).removesuffix(".antt"): path for path in files}


def without_modules(text):
    """The lines of a file of specs/, where what stands in a module with parameters is moved to the margin, below a
    heading that names them."""
    is_inside = False
    for line in text.split("\n"):
        module = re.match(r"module _ (.*) where$", line)
        is_inside = bool(module) or is_inside and (line.startswith("  ") or not line)
        yield f"-- ---- for every `{module[1]}`" if module else line[2:] if is_inside else line


def read_definitions(text):
    """What a file of specs/ says first, and its parts: a heading as a text, or definitions under one comment."""
    head, parts, comment, group = [], [], [], None
    for line in without_modules(text):
        found = DEFINITION.match(line)
        if line.startswith("-- ---- "):
            parts.append(line[8:].strip())
            comment, group = [], None
        elif line.startswith("--"):
            comment.append(line[2:].strip())
        elif found:
            if comment or not isinstance(group, Definition):
                group = Definition(comment)
                parts.append(group)
            group.names.append(found[1])
            group.lines += ["", line] if group.lines else [line]
            comment = []
        elif re.match(r"(pub )?(use|mod) ", line):
            head, comment = (comment or head), []
        elif not line.strip():
            comment = []
        elif line.startswith("pub "):
            group, comment = None, []
        elif group:
            group.lines.append(line)
    return head, parts


def definition_lines(parts):
    """The lines of a file's definitions."""
    lines = []
    for part in parts:
        if isinstance(part, str):
            lines += [f"**{part[0].upper()}{part[1:]}**", ""]
            continue
        lines += [f"### {', '.join(f'`{name}`' for name in part.names)}", ""]
        lines += [sentence(part.comment), ""] if part.comment else []
        cut = [*part.lines[:MOST_LINES], "..."] if len(part.lines) > MOST_LINES + 5 else part.lines
        lines += ["```text", *cut, "```", ""]
    return lines


def definitions_page(crate):
    """The crate's page of definitions, or None, and the address of each definition by its file and its name."""
    lines, shown = [], []
    for name, path in spec_files(crate).items():
        head, parts = read_definitions(read(path))
        groups = [part for part in parts if isinstance(part, Definition)]
        if groups:
            lines += [f"## `{name}.antt`", "", *([sentence(head), ""] if head else []), *definition_lines(parts)]
            shown += [(name, part) for part in [None, *groups]]
    if not lines:
        return None, {}
    titles = [name + ".antt" if part is None else ", ".join(part.names) for name, part in shown]
    addresses = {}
    for (name, part), anchor in zip(shown, anchors([f"Definitions of {crate}", *titles])[1:]):
        for it in part.names if part else []:
            addresses[name, it] = f"{crate}.md#{anchor}"
    first = [f"# Definitions of {crate}", "", about(crate), ""]
    first += [f"The files are those of `crates/{crate}/specs`. [The calls that promise this](../promises/{crate}.md).", ""]
    return "\n".join(first + lines).rstrip() + "\n", addresses


# ---- promises


def signature_and_contract(lines, at):
    """The signature that begins in a line, with its contract and without its body."""
    indent = len(lines[at]) - len(lines[at].lstrip())
    found, depth, has_contract = [], 0, False
    for line in lines[at:]:
        own = line.strip()
        if own in ("{", "{}") and len(line) - len(line.lstrip()) == indent:
            break
        has_contract |= bool(CONTRACT.match(line))
        ends = depth + balance(line) == 0 and own.endswith(";")
        if not has_contract and re.search(r"\{\}?$", own):
            found.append(re.sub(r" ?\{\}?$", "", line))
            break
        found.append(line.rstrip(";") if ends else line)
        depth += balance(line)
        if ends:
            break
    return [line[indent:] if line[:indent].isspace() or not indent else line for line in found], has_contract


def balance(line):
    """How many brackets a line opens, less those that it closes."""
    return sum(line.count(it) for it in "([{") - sum(line.count(it) for it in ")]}")


def ghost_items(lines, at, indent):
    """The lines of the ghost items of a trait or an impl that begins in a line."""
    found, is_open, depth = [], False, 0
    for number, text in enumerate(lines[at + 1 :], at + 1):
        if text.startswith(" " * indent + "}"):
            break
        if text.startswith(" " * (indent + 4) + "ghost "):
            comment = number - 1
            while lines[comment].strip().startswith("// "):
                comment -= 1
            found += [line[indent + 4 :] for line in lines[comment + 1 : number]]
            is_open, depth = True, 0
        if is_open:
            found.append(text[indent + 4 :])
            depth += balance(text)
            is_open = depth > 0 or not text.rstrip().endswith((";", "}"))
    return found


def impl_name(lines, at):
    """What a block implements, as it is written, without the parameters of the impl itself; and its type's name."""
    head = " ".join(line.strip() for line in lines[at : at + 6]).split(" {")[0].split(" where")[0].removeprefix("impl")
    depth = 0
    if head.startswith("<"):
        for place, letter in enumerate(head):
            depth += (letter == "<") - (letter == ">" and head[place - 1] != "-")
            if depth == 0:
                head = head[place + 1 :]
                break
    shown = re.sub(r"<'_>|'\w+, |<'\w+>", "", head.strip())
    own = shown.split(" for ")[-1]
    return shown, re.match(r"&?(?:mut )?(?:\w+::)*(\w+)", own)[1] if re.match(r"&?(?:mut )?\w", own) else own


def block_promises(lines, at, name, source, is_public):
    """The promises of the functions in a trait or an impl that begins in a line, and of its ghost items."""
    ghosts = ghost_items(lines, at, 0)
    if ghosts and not name.startswith("Model for "):
        kind = "trait" if lines[at].startswith("pub trait") else "impl"
        yield Promise(f"{kind} {name}", api.doc_above(lines, at), ghosts, source)
    for number, text in api.members(lines, at, 0, FUNCTION.match):
        contract, has_contract = signature_and_contract(lines, number)
        if has_contract and (text.startswith("pub ") or not is_public):
            owner = re.sub(r"^(.*) for (.*)$", r"<\2 as \1>", name)
            yield Promise(f"{owner}::{FUNCTION.match(text)[1]}", api.doc_above(lines, number), contract, source)


def file_promises(path, is_shown):
    """The promises of a file: of the items for whose names `is_shown` holds."""
    lines, source = read(path).split("\n"), os.path.relpath(path, ROOT)
    for number, line in enumerate(lines):
        if line.startswith("impl"):
            name, own = impl_name(lines, number)
            if is_shown(own):
                yield from block_promises(lines, number, name, source, " for " not in name)
            continue
        trait = re.match(r"pub trait (\w+)", line)
        if trait and is_shown(trait[1]):
            yield from block_promises(lines, number, trait[1], source, False)
        function = FUNCTION.match(line)
        if function and is_shown(function[1]):
            contract, has_contract = signature_and_contract(lines, number)
            if has_contract:
                yield Promise(function[1], api.doc_above(lines, number), contract, source)


def exported(crate):
    """What a crate shows: the names, and the modules whose public items it shows. A program shows its functions."""
    path = f"{ROOT}/crates/{crate}/src/lib.rt"
    if crate in OF_PROGRAMS or not os.path.exists(path):
        return None, []
    text = read(path)
    names = set()
    for many, one in re.findall(r"^pub use [\w:]+::(?:\{([^}]*)\}|(\w+));", text, re.M):
        names |= {it.strip().split(" as ")[-1] for it in (many or one).split(",") if it.strip()}
    return names, re.findall(r"^pub mod (\w+);", text, re.M)


def names_in(path, is_program):
    """The names of a file's public items, and in a program of all its functions."""
    lines = read(path).split("\n")
    found = [re.match(r'pub (?:const )?(?:extern "C" )?(?:fn|trait|struct|enum) (\w+)', line) for line in lines]
    found += [FUNCTION.match(line) for line in lines] if is_program else []
    return {it[1] for it in found if it}


def promises(crate):
    """The promises of a crate, file by file."""
    names, modules = exported(crate)
    for path in api.sources(crate):
        part = os.path.relpath(path, f"{ROOT}/crates/{crate}/src").removesuffix(".rt").split("/")
        if "tests" in part:
            continue
        own = names_in(path, names is None)
        shown = own if names is None or part[0] in modules else names & own
        # The methods of a type may stand in another file than the type.
        types = shown | {name for name in names or () if name[0].isupper()}
        yield from file_promises(path, types.__contains__)


def terms(promise, uses, addresses):
    """Links to the definitions that a contract names."""
    words = dict.fromkeys(re.findall(r"[\w-]+", "\n".join(promise.contract)))
    found = [(word, addresses[uses[word]]) for word in words if uses.get(word) in addresses]
    return ", ".join(f"[`{word}`](../definitions/{address})" for word, address in found)


def used(path):
    """Which definition each name of a source file is: its crate, its file in specs/, and its name there."""
    found = {}
    for crate, module, names in USE.findall(read(path)):
        for name in (it.strip() for it in names.split(",")):
            found[name.split(" as ")[-1]] = (crate, module.replace(".", "/"), name.split(" as ")[0])
    return found


def first_words(doc, is_whole):
    """The first paragraph of a doc comment, or all of it but for its examples, headings and sources."""
    text = re.sub(r"```.*?```", "", "\n".join(doc), flags=re.S)
    parts = [part.strip() for part in text.split("\n\n") if part.strip()]
    return [part for part in parts if not part.startswith(("#", "Source:"))] if is_whole else parts[:1]


def promises_page(crate, addresses):
    """The crate's page of promises, or None."""
    found, uses = list(promises(crate)), {}
    if not found:
        return None
    lines = [f"# Promises of {crate}", "", about(crate), ""]
    see = [f"[The definitions of this crate](../definitions/{crate}.md)."] if crate in {it[0] for it in addresses} else []
    has_page = crate in api.CRATES
    see += [f"[Its calls for users](../{crate}.md), with all that their comments say."] if has_page else []
    lines += [" ".join(see), ""] if see else []
    for promise in found:
        if promise.source not in uses:
            uses[promise.source] = used(f"{ROOT}/{promise.source}")
        named = terms(promise, uses[promise.source], addresses)
        lines += [f"## `{promise.name}`", ""]
        for part in first_words(promise.doc, not has_page):
            lines += [part, ""]
        lines += ["```text", *promise.contract, "```", ""]
        lines += [f"{f'Terms: {named}. ' if named else ''}In `{promise.source}`.", ""]
    return re.sub(r"\n{3,}", "\n\n", "\n".join(lines + edit_lines(crate))).rstrip() + "\n"


# ---- must-fail edits


def edits(crate="*"):
    """The files of the must-fail edits, by their names."""
    files = glob.glob(f"{ROOT}/tests/edits/{crate}/*.edit")
    return {os.path.basename(file).removesuffix(".edit"): file for file in sorted(files, key=os.path.basename)}


def edit_lines(crate):
    """The lines of the crate's must-fail edits: the function that each is in, and what it changes in the source."""
    lines = []
    for name, path in edits(crate).items():
        function, source, changes = "", "", []
        for line in read(path).split("\n"):
            kind, _, text = line.partition(": ")
            if kind == "only":
                function = text
            elif kind == "file":
                source = text
            elif kind in ("old", "new") and source.startswith("src/"):
                changes.append(f"{'-' if kind == 'old' else '+'} {text.strip()}")
        lines += [f"### `{name}`", "", f"In `{function}`.", "", "```text", *changes, "```", ""]
    about_them = "Planted mistakes, each of which the prover must refuse; docs/PROMISES.md says which promise it breaks."
    return ["## Must-fail edits", "", about_them, "", *lines] if lines else []


# ---- all pages


def index(title, what, names):
    """The page that names the others."""
    rows = [f"- [`{name}`]({name}.md): {about(name)}" for name in names]
    return f"# {title}\n\n{what} `python3 tools/contracts.py` makes these pages.\n\n" + "\n".join(rows) + "\n"


def pages():
    """All pages by their paths below docs/api."""
    made, addresses = {}, {}
    for crate in crates():
        text, found = definitions_page(crate)
        if text:
            made[f"definitions/{crate}.md"] = text
            addresses.update({(crate, *key): address for key, address in found.items()})
    for crate in crates():
        text = promises_page(crate, addresses)
        if text:
            made[f"promises/{crate}.md"] = text
    for kind, (title, what) in INDEXES.items():
        names = [crate for crate in crates() if f"{kind}/{crate}.md" in made]
        made[f"{kind}/README.md"] = index(title, what, names)
    return made


def cells(text):
    """The names in backticks of the tables of docs/PROMISES.md, by the columns in which they stand."""
    found, columns = [], []
    for line in text.split("\n"):
        row = [cell.strip() for cell in re.split(r"(?<!\\)\|", line)[1:-1]] if line.startswith("|") else []
        if not row:
            columns = []
        elif not columns:
            columns = row
        else:
            found += [(column, name) for column, cell in zip(columns, row) for name in re.findall(r"`([^`]+)`", cell)]
    return found


def tested():
    """The names of test functions and test modules, and the paths of the test scripts."""
    files = glob.glob(f"{ROOT}/crates/*/src/**/*.rt", recursive=True)
    found = {os.path.basename(file).removesuffix(".rt") for file in files}
    found |= {name for file in files if "/test_" in file or "tests" in file for name in re.findall(r"fn (\w+)", read(file))}
    return found | {os.path.relpath(file, ROOT) for file in glob.glob(f"{ROOT}/tests/**", recursive=True)}


def said(made):
    """What docs/PROMISES.md has to say, and whether it does: the edits, and names that stand for something."""
    rows, tests = cells(read(f"{ROOT}/docs/PROMISES.md")), tested()
    headings = "\n".join(text for name, text in made.items() if name.startswith("promises/"))
    calls = set(re.findall(r"(\w+)(?:<[^`]*>)?`$", headings, re.M)) | set(re.findall(r"fn (\w+)", headings))
    named = {name for column, name in rows if column == "Edits"}
    for edit in edits():
        yield f"the edit {edit} is named", edit in named
    for name in sorted(named - set(edits())):
        yield f"the edit {name} is there", False
    for column, name in rows:
        if column == "Contract":
            yield f"the contract of {name} is there", name.split("::")[-1].split("(")[0] in calls
        if column == "Tests":
            yield f"the test {name} is there", (name if "/" in name else name.split("::")[-1]) in tests


def check(made):
    """Compares the pages, asks docs/PROMISES.md, and ends with the counts."""
    there = {os.path.relpath(path, PAGES) for path in glob.glob(f"{PAGES}/*/*.md")}
    passed = failed = 0
    for name in sorted(there | set(made)):
        is_same = name in there and read(f"{PAGES}/{name}") == made.get(name)
        print(f"docs/api/{name}: {'fresh' if is_same else 'not what python3 tools/contracts.py writes'}")
        passed, failed = passed + is_same, failed + (not is_same)
    for what, is_so in said(made):
        if not is_so:
            print(f"docs/PROMISES.md: it is not so that {what}")
        passed, failed = passed + is_so, failed + (not is_so)
    print(f"{passed} passed, {failed} failed")
    sys.exit(1 if failed else 0)


def main():
    made, is_check = pages(), sys.argv[1:] == ["--check"]
    if sys.argv[1:] and not is_check:
        sys.exit(__doc__)
    if is_check:
        check(made)
    for kind in ("definitions", "promises"):
        os.makedirs(f"{PAGES}/{kind}", exist_ok=True)
        for path in glob.glob(f"{PAGES}/{kind}/*.md"):
            if os.path.relpath(path, PAGES) not in made:
                os.remove(path)
    for name, text in made.items():
        with open(f"{PAGES}/{name}", "w", encoding="utf-8") as file:
            file.write(text)


if __name__ == "__main__":
    main()
