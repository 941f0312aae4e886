#!/usr/bin/env python3
"""Lists the public calls of the libraries that may answer a failed allocation, as their sources declare them.

    tests/memory_calls.py

Listed is each public function and method, and each method of a public trait's implementation, whose answer is a
`Result` of an error with a variant `Memory`. A line is the call, as `TokenParser::parse`, and behind ` of ` what it
is to be asked for: the kinds of tokens that its block is for, as `v1.local`, or the type that implements the trait.
A trait's method that has no body is its implementers' matter, and is listed with them.

It reads the sources as `rt fmt` lays them out, and does not see what only a compiler can: the methods that a derive
writes, and a call that keeps an error for itself or hands it to a caller's function. It fails, with the line, where
a function stands in a shape that it does not know: one that is declared in another way or deeper than in a block, an
answer that has an error in it in another way than `Result<.., Error>`, an alias of a `Result`, an error that holds
another one and has no variant `Memory`, and a block whose version has a bound that it does not know.
"""
import re
import sys
from pathlib import Path

CRATES = [
    "rusty_paseto_parts",
    "rusty_paseto_core",
    "rusty_paseto_claims",
    "rusty_paseto_generic",
    "rusty_paseto",
    "paseto_xchacha20poly1305",
    "paseto_ed25519",
    "paseto_p384",
    "paseto_rsa",
    "rusty_paseto_paserk",
    "paseto_argon2",
    "paseto_pem",
    "paseto_wrapping",
    "paseto_key_files",
    "paseto_keys",
]

# The versions for which a block is that is bound by one of these traits.
VERSIONS = {
    "LocalVersion": [1, 3, 4],
    "GenericLocalVersion": [1, 3, 4],
    "DefaultLocalVersion": [1, 3, 4],
    "AssertionVersion": [3, 4],
    "DefaultAssertionVersion": [3, 4],
    "PublicVersion": [1, 2, 3, 4],
    "Signs": [1, 2, 3, 4],
    "Verifies": [1, 2, 3, 4],
    "PemVersion": [1, 2, 3, 4],
}

# The purpose of the tokens of a trait whose methods have a version as `Self`.
PURPOSES = {"LocalVersion": "local", "Signs": "public", "Verifies": "public", "PemVersion": "public"}

# The traits of setters, each of which is listed with the types that have it: `TokenParser::put_check`.
SETTERS = {"ClaimSetter", "CheckSetter", "CountingSetter"}

# Bounds by which a version is any.
ANY_VERSION = {"VersionTrait"}

# Functions that hand on the error of the type that takes the bytes in. Who calls them is listed.
HAND_ON = {"absorb", "absorb_pieces"}

BLOCK = re.compile(r"^(pub |pub\(crate\) )?(impl|trait)\b")
FUNCTION = re.compile(r"^(    )?(pub )?(final )?fn (\w+)")
KNOWN = re.compile(r"^(    )?(pub(\((crate|super)\))? )?(final )?fn \w+")
CLAUSE = re.compile(r"^\s*(requires|ensures)\*?( \w+)? \{")


def declared(lines, start):
    """What is declared from a line on, without its clauses, on one line, and whether a body follows."""
    text, in_clauses = [], False
    for line in lines[start:]:
        in_clauses = in_clauses or bool(CLAUSE.match(line))
        is_body = line.strip() in ("{", "{}") or (not in_clauses and line.rstrip().endswith("{"))
        if not in_clauses:
            text.append(line.strip())
        if is_body or line.rstrip().endswith(("}", ";") if not in_clauses else ";"):
            return " ".join(text), is_body
    raise SystemExit(f"no end of a declaration: {lines[start]}")


def errors_of(sources):
    """The error types that have a variant `Memory`. An enum that holds one of them has to have it too."""
    enums = [it for text in sources.values() for it in re.findall(r"^pub enum (\w+)[^{]* \{\n(.*?)^\}", text, re.M | re.S)]
    found = {name for name, body in enums if re.search(r"^    Memory\b", body, re.M)}
    for name, body in enums:
        held = set(re.findall(r"\w+", re.sub(r"//.*|#\[.*|^    \w+", "", body, flags=re.M))) & found
        if name not in found and held:
            raise SystemExit(f"an enum that holds an error and has no variant Memory: {name}, {held}")
    return found


def refuse_unknown_shapes(path, text):
    """Fails where a source declares functions, or what they answer, in a way that this script does not know."""
    for number, line in enumerate(text.split("\n"), 1):
        code = re.sub(r"//.*", "", line)
        if re.search(r"\bfn \w+", code) and not KNOWN.match(line):
            raise SystemExit(f"{path}:{number}: a function in a shape that is not known: {line.strip()}")
        if re.match(r"\s*(pub )?(type \w+.*= .*\bResult\b|struct \w*Error\b|macro_rules!)", code):
            raise SystemExit(f"{path}:{number}: what is answered may be hidden here: {line.strip()}")


def answer_of(head, name):
    """What a function answers, of its declaration on one line: empty where it answers nothing."""
    rest = parameters(head.split(f"fn {name}", 1)[1])[1]
    depth = 0
    for place, character in enumerate(rest):
        depth += {"(": 1, ")": -1}.get(character, 0)
        if depth == 0:
            return re.sub(r"( where .*| \{| \{\}|;)$", "", rest[place + 1:]).removeprefix(" -> ").strip()
    raise SystemExit(f"no end of the parameters: {head}")


def error_of(head, name, errors):
    """The error of what a function answers, if it has one that may tell of memory."""
    answer = answer_of(head, name)
    found = re.fullmatch(r"Result<.*, (\w+)>", answer)
    if found:
        return found.group(1) if found.group(1) in errors else None
    words = set(re.findall(r"\w+", answer))
    # An error that is lent, and what shows one, are no answers of this call.
    is_lent = re.fullmatch(r"Option<&\w+>|Explained<'_, \w+>", answer)
    is_known = is_lent or answer == "fmt::Result" or answer in errors or name in HAND_ON
    if (words & errors or "Result" in words) and not is_known:
        raise SystemExit(f"{name} answers in a shape that is not known: {answer}")
    return None


def without_generics(text):
    """A type or a trait without its parameters: `Paseto` of `Paseto<'_, V, Local>`."""
    return re.sub(r"<.*", "", text.strip())


def parameters(text):
    """What stands in the first angle brackets at the front of a text, and what follows them."""
    if not text.startswith("<"):
        return "", text
    depth = 0
    for place, character in enumerate(text):
        depth += {"<": 1, ">": -1}.get(character, 0) if text[place - 1:place + 1] != "->" else 0
        if depth == 0:
            return text[1:place], text[place + 1:]
    raise SystemExit(f"no end of the parameters: {text}")


def kinds_of(bounds, target, where):
    """The kinds of tokens that a block is for: none where its version is any."""
    found = re.search(r"\b(Local|Public)\b", target)
    if not found:
        return []
    purpose = found.group(1).lower()
    named = re.findall(r"\bV([1-4])\b", target)
    if named:
        return [f"v{version}.{purpose}" for version in named]
    found = [bound for bound in re.findall(r"\bV(?:ersion)?: (\w+)", bounds + ", " + where) if bound not in ANY_VERSION]
    for bound in found:
        if bound in VERSIONS:
            return [f"v{version}.{purpose}" for version in VERSIONS[bound]]
    if found:
        raise SystemExit(f"a version of a bound that is not known: {found}: {target}")
    return []


def listed(block, name, where, setters):
    """The lines for a function of a block, which is empty for a function of its own."""
    if not block:
        return [name]
    bounds, rest = parameters(re.sub(r"^(pub |pub\(crate\) )?(impl|trait)\s*", "", block))
    rest = rest.strip()
    if re.match(r"^(pub )?trait", block):
        trait = re.match(r"\w+", rest).group(0)
        if trait in SETTERS:
            return [f"{target}::{name}" for target in setters[trait]]
        if trait not in PURPOSES:
            return [f"{trait}::{name}"]
        return [f"{trait}::{name} of v{version}.{PURPOSES[trait]}" for version in VERSIONS[trait]]
    if " for " in rest:
        trait, target = [without_generics(part) for part in rest.split(" for ", 1)]
        target = re.sub(r"&'\w+ ", "&", target)
        if trait in SETTERS:
            return [f"{target}::{name}"]
        version = re.fullmatch(r"V([1-4])", target)
        if version and trait in PURPOSES:
            return [f"{trait}::{name} of v{version.group(1)}.{PURPOSES[trait]}"]
        return [f"{trait}::{name} of {target}"]
    call = f"{without_generics(rest)}::{name}"
    return [f"{call} of {kind}" for kind in kinds_of(bounds, rest, where)] or [call]


def setters_of(sources):
    """The types that have each trait of setters."""
    found = {trait: set() for trait in SETTERS}
    for text in sources.values():
        for trait, target in re.findall(r"^impl<.*> (\w+)(?:<\w+>)? for (\w+)", text, re.M):
            if trait in SETTERS:
                found[trait].add(target)
    empty = [trait for trait, targets in found.items() if not targets]
    if empty:
        raise SystemExit(f"traits that no type has: {empty}")
    return found


def hidden_traits(sources):
    """The traits that no caller sees."""
    return {name for text in sources.values() for name in re.findall(r"^(?:pub\(crate\) )?trait (\w+)", text, re.M)}


def hidden_types(sources):
    """The types that no caller sees."""
    def named(word):
        return {name for text in sources.values() for name in re.findall(rf"^{word}(?:struct|enum) (\w+)", text, re.M)}
    return named(r"(?:pub\(crate\) )?") - named("pub ")


def is_listed(block, function, hidden):
    """Whether a function of a block is public, by its own word or by its trait's and its type's."""
    target = re.search(r" for &?(?:'\w+ )?(\w+)", block)
    if target and target.group(1) in hidden:
        return False
    trait = re.match(r"(?:pub(?:\(crate\))? )?trait (\w+)", block) or re.match(r".*?(\w+)(?:<.*>)? for ", block)
    return trait.group(1) not in hidden if trait else bool(function.group(2))


def calls_of(text, errors, hidden, setters):
    """The calls of a source file."""
    lines = text.split("\n")
    block, found = "", []
    for place, line in enumerate(lines):
        if BLOCK.match(line) and not line.endswith("}"):
            block = re.sub(r" \{$", "", declared(lines, place)[0])
        if line == "}":
            block = ""
        function = FUNCTION.match(line)
        if not function or not is_listed(block, function, hidden):
            continue
        head, body = declared(lines, place)
        if body and error_of(head, function.group(4), errors):
            where = head.split(" where ", 1)[1] if " where " in head else ""
            found += listed(block, function.group(4), where, setters)
    return found


def main():
    root = Path(__file__).resolve().parent.parent / "crates"
    paths = [path for crate in CRATES for path in sorted((root / crate / "src").rglob("*.rt"))]
    sources = {path: path.read_text(encoding="utf-8") for path in paths if path.name != "tests.rt"}
    for path, text in sources.items():
        refuse_unknown_shapes(path, text)
    errors = errors_of(sources)
    hidden, setters = hidden_traits(sources) | hidden_types(sources), setters_of(sources)
    calls = sorted({call for text in sources.values() for call in calls_of(text, errors, hidden, setters)})
    if not calls:
        sys.exit("no call was found")
    print("\n".join(calls))


main()
