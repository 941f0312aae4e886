#!/usr/bin/env python3
"""Tries the must-fail edits: wrong bodies, each of which the prover has to refuse at a goal.

    python3 tests/edits.py [CRATE | CRATE/NAME ..]

An edit is a file tests/edits/CRATE/NAME.edit. Its first line, `only:`, names the function whose body it changes, by its path
as the prover prints it. Each function is proved against the contracts of the others, and not against their bodies, so edits
of different functions of one crate are tried by one check, which asks these functions alone; those of one function
come one after the other. The libraries below are those that `rt ci` has built, and are built where there are none.

An edit passes only if its function is refused at a goal. It fails where it does not apply, where the function is proved with
it or waits for another function, and where it is refused only because a proof names what it took away, or only by
a limit of the prover. tests/edits.txt says how many edits each crate has, so that none is lost. As many checks run
side by side as RT_JOBS says, and otherwise as there are processors.

    python3 tests/edits.py --without-answers [--unedited] [CRATE | CRATE/NAME ..]

tries edits, each alone, without the written answers of the function that it is in. A written answer that does not fit refuses a
body whatever the contract says; without it the prover refuses one only where it finds no proof. The line of an
edit names the goals that stay open. Some of them may be open without the edit, too, since the prover needs the
answer that was left out: compare with `--unedited` in front of the names. It takes about a minute an edit, and is
for a release and for a new edit.

The last line is 'N passed, M failed', and the status is 0 where none failed.
"""
import concurrent.futures
import dataclasses
import glob
import os
import re
import subprocess
import sys
import tempfile

ROOT = os.path.dirname(os.path.dirname(os.path.abspath(__file__)))
sys.path.insert(0, f"{ROOT}/tools")
sys.dont_write_bytecode = True
import prove  # noqa: E402

# A place in a file of the crate, at which the prover says something.
PLACE = re.compile(r"(?:note: )?(?:\./)?((?:src|proofs)/[^:]*):(\d+):\d+: (.*)")
# What is said of a function without a written answer to a goal that the prover does not find a proof of.
OPEN = re.compile(r"no proof: expected answers in \S+; `search` did not prove ")
# What is said of a proof that names what the edit took away, and of an answer to a goal that the edited function does not have.
NAMES = re.compile(r".*(has no field|is not in scope|has no `|was not admitted|: module .* has no )")


# ---- edits


@dataclasses.dataclass(eq=False)
class Edit:
    """An edit of a crate: which function it changes, and which lines of which files become which others."""

    crate: str
    name: str
    only: str
    changes: list

    def __str__(self):
        return f"{self.crate}/{self.name}"


def read_edit(path):
    """The edit of a file."""
    crate, file = path.split("/")[-2:]
    only, file_of, changes, old = "", "", [], None
    with open(path, encoding="utf-8") as lines:
        for line in lines.read().split("\n"):
            word, _, text = line.partition(": ")
            if word == "only":
                only = text
            elif word == "file":
                file_of = text
            elif word == "old":
                old = text
            elif word.rstrip(":") == "new":
                changes.append((file_of, old, text))
    return Edit(crate, file.removesuffix(".edit"), only, changes)


def asked(words):
    """The edits of these names, which are of crates or of edits, or all edits."""
    found = [read_edit(path) for path in sorted(glob.glob(f"{ROOT}/tests/edits/*/*.edit"))]
    for word in words:
        if not any(word in (edit.crate, str(edit)) for edit in found):
            sys.exit(f"There is no edit and no crate with edits {word}: tests/edits has all")
    return [edit for edit in found if not words or edit.crate in words or str(edit) in words]


def miscounted():
    """The crates whose edits are not as many as tests/edits.txt says, a line each."""
    with open(f"{ROOT}/tests/edits.txt", encoding="utf-8") as file:
        wanted = {name: int(number) for name, number in (line.split() for line in file)}
    there = [edit.crate for edit in asked([])]
    for crate in sorted({*there, *wanted}):
        if there.count(crate) != wanted.get(crate, 0):
            yield f"{crate} has {there.count(crate)} edits, and not {wanted.get(crate, 0)} as tests/edits.txt says"


def applied(folder, edit, texts):
    """The texts with the changes of an edit made in them, and in the crate's files where they hold none; or None if one of
    the old lines does not stand there once."""
    texts = dict(texts)
    for path, old, new in edit.changes:
        if path not in texts:
            with open(f"{folder}/{path}", encoding="utf-8") as file:
                texts[path] = file.read()
        if texts[path].count(old) != 1:
            return None
        texts[path] = texts[path].replace(old, new)
    return texts


def together(folder, edits):
    """The first edits that one check can try, of different functions, and the texts that they make; none if the first does not
    apply."""
    batch, texts = [], {}
    for edit in edits:
        made = applied(folder, edit, texts)
        if made is not None and edit.only not in [other.only for other in batch]:
            batch, texts = [*batch, edit], made
        elif not batch:
            return [], {}
    return batch, texts


# ---- what a check says of an edit


def place_of(folder, edit):
    """The file of the function that an edit changes, and its first and last line, by its indentation."""
    path, old, _ = edit.changes[0]
    with open(f"{folder}/{path}", encoding="utf-8") as file:
        lines = file.read().split("\n")
    head = re.compile(rf"(\s*)(pub(\(\w+\))? )?(final )?fn {edit.only.split('::')[-1]}\b")
    changed = next(at for at, line in enumerate(lines) if old in line)
    first = next(at for at in range(changed, -1, -1) if head.match(lines[at]))
    last = lines.index(head.match(lines[first])[1] + "}", first)
    return path, first + 1, last + 1


def goals_of(said, edit, function):
    """What a check says at the places of an edit's function: in its body, and in the proof that is written for it."""
    path, first, last = function
    folder = f"proofs/{edit.only.replace('::', '/')}/"
    for line in said.split("\n"):
        found = PLACE.match(line)
        if found and (found[1].startswith(folder) or (found[1] == path and first <= int(found[2]) <= last)):
            yield line


def verdict(ran, edit, function):
    """Why what a check said of an edit is no refusal at a goal; "" if it is one; or None if its function waits for another or the
    check came to no end, so that it has to be tried alone."""
    told = re.search(rf"^fn {re.escape(f'{edit.crate}::{edit.only}')}: (.*)$", ran.stdout, re.M)
    if ran.returncode not in (0, 1) or not told or told[1].startswith("no proof: it calls "):
        return None
    if told[1] == "proved":
        return "it is proved with this edit"
    if OPEN.match(told[1]):
        return ""
    goals = list(goals_of(ran.stdout, edit, function))
    if any(not NAMES.match(line) for line in goals):
        return ""
    return "it is refused only because a proof names what it took away" if goals else None


def why_lost(ran):
    """What to say of an edit of which a check that tried it alone gave no verdict."""
    lines = [line for line in ran.stdout.split("\n") if "error" in line or "no proof" in line]
    return f"its check ended with status {ran.returncode} and without a verdict: {(lines or [ran.stdout[-200:]])[0][:200]}"


# Lines of a check, and what they come to.
SAMPLE = Edit("crate", "name", "module::function", [("src/module.rt", "old", "new")])
SAMPLES = [
    (1, "./src/module.rt:5:2: error: `returns`: the two types differ\nfn crate::module::function: not proved", ""),
    (1, "note: src/module.rt:5:1: it is not proved that\nfn crate::module::function: not proved; it calls `crate::f`", ""),
    (1, "./proofs/module/function/Answers.antt:3:9: error: `goal`: they differ\nfn crate::module::function: not proved", ""),
    (1, "./proofs/module/other/Answers.antt:3:9: error: `goal`: they differ\nfn crate::module::function: not proved", None),
    (1, "./src/module.rt:50:2: error: `returns`: they differ\nfn crate::module::function: not proved; it calls `f`", None),
    (1, "fn crate::module::function: no proof: it calls `crate::f`, which is not proved", None),
    (1, "fn crate::module::function: no proof: expected answers in ./proofs/f; `search` did not prove `returns`", ""),
    (0, "fn crate::module::function: proved", "it is proved with this edit"),
    (3, "fn crate::module::function: not proved", None),
    (1, "./proofs/module/function/Answers.antt:3:9: error: `goal.g`: module goal has no g\nfn crate::module::function: not proved",
     "it is refused only because a proof names what it took away"),
]


def misjudged():
    """The samples that are judged wrongly, a line each: the toolchain's words may change."""
    for status, said, wanted in SAMPLES:
        if verdict(subprocess.CompletedProcess([], status, said), SAMPLE, ("src/module.rt", 4, 9)) != wanted:
            yield f"this is judged wrongly: {said}"


# ---- trying


def build_below(crates):
    """Builds the libraries that the crates stand on, where `rt ci` has not left them."""
    lost = {it.name for crate in crates for it in crate.below() if not os.path.isdir(it.rlib)}
    if lost:
        subprocess.run([sys.executable, f"{ROOT}/tools/prove.py", *sorted(lost)], check=False)


def check(rt, crate, texts, edits):
    """What a check of the edits' functions says."""
    only = [word for edit in edits for word in ("--only", edit.only)]
    return rt.checked(crate, texts, ["--jobs", "1", *only], None)


def judge(rt, crate, edits, texts):
    """Tries edits by one check, and returns each with its verdict and with what the check said."""
    ran = check(rt, crate, texts, edits)
    return [(edit, verdict(ran, edit, place_of(crate.folder, edit)), ran) for edit in edits]


def try_edits(rt, crate, edits):
    """Tries the edits of a crate, those of different functions together, and returns what is wrong with each, or ""."""
    found, left, alone = {}, list(edits), []
    while left:
        batch, texts = together(crate.folder, left)
        if not batch:
            found[left.pop(0)] = "it does not apply: an old line does not stand once in its file"
            continue
        left = [edit for edit in left if edit not in batch]
        judged = judge(rt, crate, batch, texts)
        found.update((edit, why) for edit, why, _ in judged if why is not None)
        alone += [edit for edit, why, _ in judged if why is None]
    for edit in alone:
        ((_, why, ran),) = judge(rt, crate, [edit], applied(crate.folder, edit, {}))
        found[edit] = why_lost(ran) if why is None else why
    for edit, why in found.items():
        print(f"{edit}: {why or 'refused, as it must be'}", flush=True)
    return found


def try_all(edits):
    """Tries edits, those of each crate in a thread, and returns what is wrong, a line each."""
    rt = prove.toolchain()
    rt.rtlib.guarded()
    crates = {name: prove.crates_of(rt, [name])[name] for name in sorted({edit.crate for edit in edits})}
    build_below(crates.values())
    jobs = int(os.environ.get("RT_JOBS") or os.cpu_count())
    with concurrent.futures.ThreadPoolExecutor(jobs) as pool:
        runs = [pool.submit(try_edits, rt, crate, [edit for edit in edits if edit.crate == name]) for name, crate in crates.items()]
        found = [it for run in runs for it in run.result().items()]
    return [f"{edit}: {why}" for edit, why in found if why]


# ---- without the written answers


def without_answers(edits, is_unedited):
    """Tries each edit with no written answers of its function, and says which goals are open; is_unedited leaves the edits out.
    What is refused at no goal is returned."""
    rt, wrong = prove.toolchain(), []
    rt.rtlib.guarded()
    for edit in edits:
        crate = prove.crates_of(rt, [edit.crate])[edit.crate]
        build_below([crate])
        texts = applied(crate.folder, edit, {})
        answers = f"proofs/{edit.only.replace('::', '/')}/Answers.antt"
        none = {answers: ""} if os.path.isfile(f"{crate.folder}/{answers}") else {}
        ran = check(rt, crate, none if is_unedited else {**(texts or {}), **none}, [edit])
        goals = sorted(set(re.findall(r"^note: `([\w.-]+)` of \S+ must prove: ", ran.stdout, re.M)))
        how = "it does not apply" if texts is None else "it is proved" if ran.returncode == 0 else why_lost(ran)
        print(f"{edit}: {' '.join(goals) or how}", flush=True)
        if not is_unedited and (texts is None or not goals):
            wrong.append(f"{edit}: {how}")
    return wrong


def main():
    words = sys.argv[1:]
    if words[:1] == ["--without-answers"]:
        is_unedited = words[1:2] == ["--unedited"]
        edits = asked(words[1 + is_unedited :])
        wrong = without_answers(edits, is_unedited)
    elif not any(word.startswith("-") for word in words):
        edits = asked(words)
        wrong = [*misjudged(), *miscounted(), *try_all(edits)]
    else:
        sys.exit("usage: tests/edits.py [CRATE | CRATE/NAME ..] | --without-answers [--unedited] [CRATE | CRATE/NAME ..]")
    for it in wrong:
        print(f"FAILED: {it}")
    print(f"{len(edits) - min(len(wrong), len(edits))} passed, {len(wrong)} failed")
    sys.exit(1 if wrong else 0)


if __name__ == "__main__":
    main()
