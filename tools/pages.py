#!/usr/bin/env python3
"""Writes a manual page for each call of the library for C, from its header.

    python3 tools/pages.py FOLDER HEADER

FOLDER gets NAME.3 for each function that the header declares or defines. A page has the prototype and the structs that it takes, the
comment that stands above it, with its example, what the heading of its topic says, and the statuses that are named there, each with
what the header says of it. A function NAME that is defined only has the comment of NAME_with. build.sh makes the pages, so none is
older than the header.
"""
import os
import re
import sys
import textwrap

with open(os.path.join(os.path.dirname(os.path.abspath(__file__)), "../VERSION"), encoding="utf-8") as file:
    VERSION = file.read().strip()
# A comment at the left margin; a function, declared or inline; a struct.
PARTS = re.compile(r"^/\*(?P<comment>.*?)\*/|"
                   r"^(?:static inline )?(?P<result>\w+(?: \w+)*) (?P<name>paseto_\w+)\((?P<parameters>[^()]*)\)(?:;| \{)|"
                   r"^(?P<struct>struct (?P<tag>\w+) \{.*?^\};)", re.M | re.S)
STATUS = re.compile(r"^    (PASETO_\w+) = (\d+),?(?: +/\* (.*?) \*/)?$", re.M)
# A name for some parameters of many calls.
MACRO = re.compile(r"^#define (PASETO_\w+) ((?:const )?void \*.*)$", re.M)


class Call:
    def __init__(self, name, prototype, comment, topic, preface):
        self.name, self.prototype, self.comment, self.topic, self.preface = name, prototype, comment, topic, preface


def split(text):
    """The paragraphs of a comment, as lists of lines. What is indented is code, and belongs to the prose above it."""
    found = []
    for part in re.split(r"\n\s*\n", text.strip("\n")):
        lines = part.rstrip().split("\n")
        if found and all(it.startswith("    ") for it in lines):
            found[-1] += ["", *lines]
        else:
            found.append(lines)
    return found


def read(header):
    """The calls, and the structs by name."""
    macros, calls, structs = dict(MACRO.findall(header)), {}, {}
    topic, preface, comment = "", [], []
    parts = list(PARTS.finditer(header))
    for m, following in zip(parts, [*parts[1:], None]):
        if m["comment"] is not None:
            text = textwrap.dedent("   " + m["comment"].strip(" "))
            paragraphs = split(text)
            if text.startswith("----"):
                topic, paragraphs = text.split("\n")[0].strip("- "), split(text.partition("\n")[2])
                # A heading right above a function ends in the comment of that.
                of_call = following is not None and following["name"] is not None
                preface, paragraphs = (paragraphs[:-1], paragraphs[-1:]) if of_call else (paragraphs, [])
            comment = paragraphs
        elif m["struct"]:
            structs[m["tag"]] = m["struct"]
        else:
            parameters = re.sub(r"\bPASETO_[A-Z]+\b", lambda it: macros.get(it[0], it[0]), m["parameters"])
            parameters = re.sub(r"\bPASETO_[A-Z]+\b", lambda it: macros.get(it[0], it[0]), parameters)
            prototype = f"{m['result']} {m['name']}({' '.join(parameters.split())});"
            twin = calls.get(f"{m['name']}_with")
            of = (twin.comment, twin.topic, twin.preface) if twin else (comment, topic, preface)
            calls[m["name"]] = Call(m["name"], prototype, *of)
    return list(calls.values()), structs


def escaped(text):
    """A line as groff is to set it."""
    for old, new in (("\\", "\\e"), ("-", "\\-"), ("^", "\\(ha"), ("~", "\\(ti"), ("`", "\\(ga"), ("'", "\\(aq")):
        text = text.replace(old, new)
    return "\\&" + text if text.startswith((".", "\\(aq")) else text


def marked(text, name, calls):
    """Prose, with the names of calls and constants in bold."""
    of_call = lambda m: f"\\fB{m[0]}\\fR" + ("(3)" if m[0] != name and m[0] in calls else "")
    return re.sub(r"\b(?:PASETO_[A-Z0-9_]+|paseto_\w+)\b", of_call, escaped(text))


def paragraph(lines, name, calls):
    """Prose, and code where it is indented. A line of prose that begins with the names of fields begins anew."""
    yield ".PP"
    in_code = False
    for it in lines:
        is_code = it.startswith("    ") or (in_code and not it)
        if is_code != in_code:
            yield from [".PP", ".RS 4", ".nf"] if is_code else [".fi", ".RE", ".PP"]
        elif not is_code and it is not lines[0] and re.match(r"[a-z_]+(, [a-z_]+)*: ", it):
            yield ".PP"
        in_code = is_code
        if it.strip():
            yield escaped(it[4:]) if is_code else marked(it.strip(), name, calls)
    if in_code:
        yield from [".fi", ".RE"]


def first_sentence(call):
    """What the call does, in one line."""
    text = " ".join(it.strip() for it in call.comment[0] if not it.startswith("    "))
    sentence = re.split(r"\.(?= [A-Z]|$)|[:;] ", text)[0]
    while len(sentence) > 100 and "," in sentence:
        sentence = sentence.rpartition(",")[0]
    return sentence[:1].lower() + sentence[1:] if re.match("[A-Z][a-z]", sentence) else sentence


def synopsis(prototype):
    """The prototype in lines of at most 80 characters, where a parameter allows it."""
    head, rest = prototype.split("(", 1)
    lines, indent = [head + "("], " " * (len(head) + 1)
    for it in rest.split(", "):
        if lines[-1].strip() and not lines[-1].endswith("(") and len(lines[-1]) + len(it) + 1 > 80:
            lines.append(indent)
        lines[-1] += it + ("" if it.endswith(");") else ", ")
    return [it.rstrip() for it in lines]


def page(call, calls, structs, statuses, include):
    names = {it.name for it in calls}
    lines = [f".TH {call.name.upper()} 3 \"\" \"paseto {VERSION}\" \"Library Functions Manual\"",
             ".SH NAME", f"{call.name} \\- {escaped(first_sentence(call))}",
             ".SH SYNOPSIS", ".nf", f".B #include <{include}>", ".PP"]
    lines += [f"\\fB{escaped(it)}\\fR" for it in synopsis(call.prototype)] + [".fi"]
    for tag in dict.fromkeys(re.findall(r"struct (\w+)", call.prototype)):
        lines += [".PP", ".nf", *(escaped(it) for it in structs[tag].split("\n")), ".fi"]
    lines += [".PP", "Link with \\fB\\-lpaseto\\fR, or by \\fBpkg\\-config \\-\\-cflags \\-\\-libs paseto\\fR.", ".SH DESCRIPTION"]
    lines += [line for it in call.comment for line in paragraph(it, call.name, names)][1:]
    if call.preface:
        lines += [".SH NOTES", *[line for it in call.preface for line in paragraph(it, call.name, names)][1:]]
    told = " ".join(" ".join(it) for it in call.comment + call.preface)
    named = [it for it in statuses if re.search(rf"\b{it[0]}\b", told)]
    if named:
        lines.append(".SH STATUSES")
        for status, number, comment in named:
            lines += [".TP", f"\\fB{status}\\fR ({number})", escaped(comment or "the call did what it is for")]
    others = [it.name for it in calls if it.topic == call.topic and it.name != call.name]
    lines += [".SH SEE ALSO", *(f".BR {it} (3)," for it in others), ".BR libpaseto (3)"]
    return "\n".join(lines) + "\n"


def main():
    if len(sys.argv) != 3:
        sys.exit(__doc__)
    folder, source = sys.argv[1:]
    os.makedirs(folder, exist_ok=True)
    with open(source, encoding="utf-8") as file:
        header = file.read()
    calls, structs = read(header)
    for call in calls:
        with open(os.path.join(folder, f"{call.name}.3"), "w", encoding="utf-8") as file:
            file.write(page(call, calls, structs, STATUS.findall(header), os.path.basename(source)))


if __name__ == "__main__":
    main()
