#!/usr/bin/env python3
"""Runs the sessions of docs/PASETO.md with the built program, and compares what they print.

    python3 tests/sessions.py [PROGRAM]

Without PROGRAM it takes the one that `rt ci` and build.sh leave in crates/paseto/out. Each block of the page that begins with
`$ ` is a session, which one bash runs in a new folder, a command a line; standard error is read as well. The times of
the commands are moved by as much as has passed since the recording. Of what is printed, times and long hexadecimal numbers
count as equal. The last line is 'N passed, M failed', and the status is 0 where none failed.
"""
import datetime
import os
import re
import subprocess
import sys
import tempfile

ROOT = os.path.dirname(os.path.dirname(os.path.abspath(__file__)))
PAGE = f"{ROOT}/docs/PASETO.md"
RECORDED = datetime.datetime(2026, 11, 28, 10, 11, 20, tzinfo=datetime.timezone.utc)
TIME = re.compile(r"\d{4}-\d\d-\d\dT\d\d:\d\d:\d\dZ")
NUMBER = re.compile(r"\b[0-9a-f]{40,}\b")
MARK = "-- the next command --"
# What the page says is there before a session.
BEFORE = [
    "",
    "umask 077; printf 'correct horse battery staple' > password; openssl genpkey -algorithm ed25519 -out signing.pem; "
    "openssl pkey -in signing.pem -pubout -out verifying.pem",
    "paseto keygen v4.local --quiet --out office.key; paseto keygen v4.local --quiet --out other.key",
]


def sessions():
    """The sessions of the page: lists of a command and the lines that it prints."""
    with open(PAGE, encoding="utf-8") as page:
        blocks = re.findall(r"^```\n(\$ .*?)^```$", page.read(), re.DOTALL | re.MULTILINE)
    for block in blocks:
        steps = []
        for line in block.splitlines():
            if line.startswith("$ "):
                steps.append((line[2:], []))
            else:
                steps[-1][1].append(line)
        yield steps


def moved(command):
    """The command with its times moved to the present."""
    passed = datetime.datetime.now(datetime.timezone.utc) - RECORDED

    def later(time):
        then = datetime.datetime.strptime(time[0], "%Y-%m-%dT%H:%M:%SZ") + passed
        return then.strftime("%Y-%m-%dT%H:%M:%SZ")

    return TIME.sub(later, command)


def without_chance(line):
    return NUMBER.sub("NUMBER", TIME.sub("TIME", line))


def printed(before, steps, program):
    """What each command of a session prints."""
    with tempfile.TemporaryDirectory() as folder:
        os.mkdir(f"{folder}/bin")
        os.symlink(program, f"{folder}/bin/paseto")
        os.mkdir(f"{folder}/session")
        script = "\n".join([before, *(f"echo '{MARK}'\n{moved(command)}" for command, _ in steps)])
        environment = {"PATH": f"{folder}/bin:{os.environ['PATH']}", "LC_ALL": "C", "HOME": folder}
        ran = subprocess.run(
            ["bash", "-c", script], cwd=f"{folder}/session", env=environment, stdin=subprocess.DEVNULL,
            stdout=subprocess.PIPE, stderr=subprocess.STDOUT, text=True, timeout=300, check=False,
        )
    return [it.splitlines() for it in ran.stdout.split(f"{MARK}\n")[1:]]


def main():
    program = os.path.abspath(sys.argv[1] if len(sys.argv) > 1 else f"{ROOT}/crates/paseto/out/paseto")
    passed = failed = 0
    found = list(sessions())
    if len(found) != len(BEFORE):
        print(f"{PAGE} has {len(found)} sessions, and not {len(BEFORE)}")
        failed += 1
    for before, steps in zip(BEFORE, found):
        answers = printed(before, steps, program)
        for number, (command, wanted) in enumerate(steps):
            answer = answers[number] if number < len(answers) else ["nothing: the session ended before"]
            if [*map(without_chance, answer)] == [*map(without_chance, wanted)]:
                passed += 1
                continue
            failed += 1
            print(f"FAILED: {command}\n  prints {answer}\n  and not {wanted}")
    print(f"{passed} passed, {failed} failed")
    return 1 if failed else 0


if __name__ == "__main__":
    sys.exit(main())
