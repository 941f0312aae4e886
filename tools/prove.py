#!/usr/bin/env python3
"""Proves crates and those that they stand on, and builds what they are: libraries, programs and static libraries.

    python3 tools/prove.py [--check] [--keep] [--cpu NAME] CRATE..

Each crate is begun as soon as those below it are done, those with the longest way to the top first, as many side by
side as processors and memory allow. What is built lies in the crates' out/ as `rt lib` and `rt run` leave it, so that
no other command proves it again, and a run that was cut off goes on where it was.

--check proves programs and static libraries, and does not build them. --keep keeps what is proved of each function, so
that after an edit only what changed is proved again, as where `rt check` has kept it: a library then holds its proofs, and
is larger and slower to read. --cpu builds static libraries for another processor, as x86-64-v3. While it works, a line tells
how much of the whole is done; what the prover says stands in the crate's out/prove.log. A crate that is refused ends with its log's
last lines, and those above it are not run. The status is 0 where all was proved.
"""
import argparse
import functools
import importlib.machinery
import importlib.util
import os
import resource
import shutil
import subprocess
import sys
import threading
import time

ROOT = os.path.dirname(os.path.dirname(os.path.abspath(__file__)))
# What one process of a check takes of memory, in bytes, as measured over the crates of this repository.
EACH = 2_000_000_000
# What one process takes to prove each crate, in seconds, as measured once; of paseto_c and paseto_calls only their sum was,
# when they were one crate, and the shares are estimates, as is what paseto_keys takes. It decides which crate goes first and how many processes it gets, and
# nothing else. A crate that is not listed counts as OTHERS.
OTHERS = 60
SECONDS = {
    "paseto": 590, "paseto_argon2": 63, "paseto_c": 120, "paseto_calls": 230, "paseto_der": 10, "paseto_ed25519": 35,
    "paseto_edwards_laws": 15,
    "paseto_edwards25519": 75, "paseto_key_files": 130, "paseto_keys": 150, "paseto_montgomery": 38, "paseto_p384": 65, "paseto_pem": 120,
    "paseto_primes": 8, "paseto_rsa": 48, "paseto_streams": 15,
    "paseto_tasks": 260, "paseto_tool": 110, "paseto_weierstrass_laws": 12, "paseto_words": 120, "paseto_wrapping": 128,
    "paseto_x25519": 18, "paseto_xchacha20poly1305": 20, "rusty_paseto": 240, "rusty_paseto_claims": 97,
    "rusty_paseto_core": 200, "rusty_paseto_generic": 230, "rusty_paseto_parts": 112, "rusty_paseto_paserk": 54,
    "rusty_paseto_primitives": 165,
}
# A crate whose way to the top is no longer than this share of the longest leaves the processors to the others, by this much.
NEAR, NICENESS = 0.9, 5
# A line tells after so many seconds how much is done, where no crate ends before.
PAUSE = 15


def toolchain():
    """The module of the toolchain's command `rt`: its crates, their stamps, and the work that checkouts share."""
    file = os.path.realpath(shutil.which("rt") or sys.exit("There is no rt on the PATH: it comes with the toolchain"))
    loader = importlib.machinery.SourceFileLoader("rt", file)
    module = importlib.util.module_from_spec(importlib.util.spec_from_loader("rt", loader))
    sys.dont_write_bytecode = True
    loader.exec_module(module)
    return module


def crates_of(rt, names):
    """The crates of these names and all below them, by name, as `rt` reads them."""
    known, found = {}, {}
    for name in names:
        folder = f"{ROOT}/crates/{name}"
        if not os.path.isdir(folder):
            sys.exit(f"There is no crate {name}: crates.txt lists those that there are")
        crate = known.setdefault(folder, known.get(folder) or rt.rtlib.Crate(folder, ROOT, known))
        rt.read_files(crate)
        found.update((it.name, it) for it in [*crate.below(), crate])
    return found


# ---- one crate, in a process of its own


def archive_stamp(rt, crate, cpu):
    """A sum of a static library and of all that it is made from. `rt lib` keeps none, and builds one anew each time."""
    return f"{crate.stamp()} {cpu} {rt.rtlib.sum_of(f'{crate.folder}/out/lib{crate.name}.a')}"


def is_built(rt, crate, cpu):
    """Whether what is built of the crate is that of its text and of the libraries below."""
    stamp, of = f"{crate.folder}/out/{crate.name}.stamp", rt.rtlib.text_of
    if crate.makes_rlib():
        return crate.is_built()
    if crate.is_static:
        return of(stamp) == archive_stamp(rt, crate, cpu)
    return of(stamp) == crate.stamp() + rt.rtlib.sum_of(f"{crate.folder}/out/{crate.name}")


def build(rt, crate, flags, cpu):
    """Builds a program as `rt run` does, which also runs it: here with no words and no input. Or a static library."""
    if not crate.is_static:
        crate.held = []
        crate.build_and_run(flags, [], False)
        return 0 if is_built(rt, crate, cpu) else 1
    status = crate.build_static([*flags, *([f"--cpu={cpu}"] if cpu else [])])
    if status == 0:
        with open(f"{crate.folder}/out/{crate.name}.stamp", "w", encoding="utf-8") as file:
            file.write(archive_stamp(rt, crate, cpu))
    return status


def work(rt, crate, jobs, cpu, is_check, keeps):
    """Proves and builds one crate over those below it, which are built."""
    # Only some releases of the toolchain share what other checkouts proved.
    if hasattr(rt, "share_work"):
        rt.share_work(True)
    flags = ["--jobs", str(jobs)]
    os.makedirs(f"{crate.folder}/out", exist_ok=True)
    os.chdir(crate.folder)
    keeps = keeps or crate.has_kept()
    if not keeps:
        rt.rtlib.KEPT = []
    if crate.makes_rlib():
        return crate.build_rlib([*flags, *["--statements"] * (not keeps)], anew=False)
    return crate.check(flags) if is_check else build(rt, crate, flags, cpu)


# ---- all crates


class Run:
    """The crates, and which of them are done, at work, or refused."""

    def __init__(self, rt, crates, given):
        self.rt, self.crates, self.given, self.begun = rt, crates, given, time.monotonic()
        self.done, self.lost, self.at_work, self.turn = set(), {}, {}, threading.Condition()
        self.jobs, self.taken, self.told = {}, {}, time.monotonic()
        self.processes = max(min(rt.processors(), rt.free() // EACH), 1)

    @functools.lru_cache(maxsize=None)
    def way(self, name):
        """The seconds of the longest way from a crate to the top, which is what is left to do once it is begun."""
        above = [it.name for it in self.crates.values() if name in [dep.name for dep in it.deps]]
        return SECONDS.get(name, OTHERS) + max(map(self.way, above), default=0)

    def say(self, text):
        minutes, seconds = divmod(int(time.monotonic() - self.begun), 60)
        self.told = time.monotonic()
        print(f"{minutes:2d}:{seconds:02d} {text}", flush=True)

    def far(self):
        """How many crates are done, and which share of the whole: a crate that is at work counts by its time, and for nine tenths
        at most."""
        seconds = {it: SECONDS.get(it, OTHERS) for it in self.crates}
        # how much longer than in SECONDS the crates take on this machine
        pace = sum(self.taken.values()) / sum(map(seconds.get, self.taken)) if self.taken else 1
        share = sum(map(seconds.get, self.done))
        for name, begun in self.at_work.items():
            share += seconds[name] * min((time.monotonic() - begun) / (seconds[name] * pace), 0.9)
        return f"{len(self.done)} of {len(self.crates)} crates, {100 * share // sum(seconds.values()):.0f} %"

    def ready(self):
        """The crates that can begin now, the longest way first; those above a refused one are given up."""
        found = []
        for name in sorted(self.crates, key=self.way, reverse=True):
            if name in self.done or name in self.lost or name in self.at_work:
                continue
            below = [it.name for it in self.crates[name].below()]
            refused = next((it for it in below if it in self.lost), None)
            if refused:
                self.lost[name] = f"not run, since {refused} was refused"
                self.say(f"{name}: {self.lost[name]}")
            elif all(it in self.done for it in below):
                found.append(name)
        return found

    def share(self, name, waiting):
        """How many processes prove the first of so many crates that wait. One does it at the least cost, and three cost a quarter
        more. But all wait for the crate with the longest way, so it gets two, or nearly all processors if no crate stands on
        it; those that are near get two while there is room, and one that ends the run with it does. Only these get processors
        for which no crate waits, since the time of the whole does not depend on the others."""
        if self.processes <= 2:
            return 1
        longest = max(map(self.way, [name, *self.at_work]))
        busy = sum(self.jobs[it] for it in self.at_work)
        is_top = not any(name in [dep.name for dep in it.deps] for it in self.crates.values())
        wanted = 1
        if self.way(name) == longest:
            wanted = self.processes - 1 if is_top else 2
        elif is_top and self.way(name) > longest / 2:
            wanted = 2
        elif self.way(name) > NEAR * longest and busy + 2 <= self.processes + 1:
            wanted = 2
        is_waited_for = is_top or self.way(name) > NEAR * longest
        return max(wanted, (self.processes - busy) // waiting) if is_waited_for else 1

    def begin(self, name, waiting):
        """Begins the first of so many crates that wait."""
        jobs = self.share(name, waiting)
        is_near = self.way(name) > NEAR * max(map(self.way, [name, *self.at_work]))
        self.at_work[name], self.jobs[name] = time.monotonic(), jobs
        threading.Thread(target=self.one, args=(name, jobs, 0 if is_near else NICENESS)).start()

    def all(self):
        """Runs all that does not stand, and returns whether each is proved."""
        for name, crate in self.crates.items():
            below = all(it.name in self.done for it in crate.below())
            if below and not (self.given.check and not crate.makes_rlib()) and is_built(self.rt, crate, self.given.cpu):
                self.done.add(name)
                self.say(f"{name}: proved earlier")
        with self.turn:
            while len(self.done) + len(self.lost) < len(self.crates):
                ready = self.ready()
                if ready and len(self.at_work) < self.processes:
                    self.begin(ready[0], len(ready))
                elif self.at_work:
                    self.turn.wait(PAUSE)
                    if self.at_work and time.monotonic() - self.told >= PAUSE:
                        self.say(f"{self.far()}; at work: {' '.join(self.at_work)}")
        return not self.lost

    def one(self, name, jobs, niceness):
        """Runs a crate's process, and says what came of it."""
        words = ["nice", "-n", str(niceness), sys.executable, os.path.abspath(__file__), "--one", str(jobs), name]
        words += [*["--check"] * self.given.check, *["--keep"] * self.given.keep]
        words += ["--cpu", self.given.cpu] if self.given.cpu else []
        log = f"{self.crates[name].folder}/out/prove.log"
        os.makedirs(os.path.dirname(log), exist_ok=True)
        how = {"stdin": subprocess.DEVNULL, "stdout": subprocess.PIPE, "stderr": subprocess.STDOUT, "errors": "replace"}
        with open(log, "w", encoding="utf-8") as file:
            ran = subprocess.Popen(words, **how)
            for line in ran.stdout:
                file.write(line)
        with self.turn:
            taken = time.monotonic() - self.at_work.pop(name)
            if ran.wait():
                self.lost[name] = "refused"
                self.say(f"{name}: refused; {os.path.relpath(log, ROOT)} has all that was said, and ends:")
                print("".join(open(log, encoding="utf-8").readlines()[-25:]), end="", flush=True)
            else:
                self.taken[name] = taken * self.jobs[name]
                self.done.add(name)
                self.say(f"{self.far()}: {name}, in {taken:.0f} seconds")
            self.turn.notify()


def main():
    words = argparse.ArgumentParser(description=__doc__, formatter_class=argparse.RawDescriptionHelpFormatter)
    words.add_argument("--check", action="store_true", help="proves programs and static libraries, and builds none")
    words.add_argument("--keep", action="store_true", help="keeps what is proved of each function, for checks after an edit")
    words.add_argument("--cpu", metavar="NAME", help="the processor that static libraries are built for")
    words.add_argument("--one", type=int, metavar="JOBS", help=argparse.SUPPRESS)
    words.add_argument("crates", nargs="+", metavar="CRATE")
    given = words.parse_args()
    rt = toolchain()
    crates = crates_of(rt, given.crates)
    if given.one:
        status = work(rt, crates[given.crates[0]], given.one, given.cpu, given.check, given.keep)
        used = resource.getrusage(resource.RUSAGE_CHILDREN)
        print(f"processors worked {used.ru_utime:.0f} and {used.ru_stime:.0f} seconds, by {given.one} processes")
        sys.exit(status)
    rt.rtlib.lock(crates.values())
    sys.exit(0 if Run(rt, crates, given).all() else 1)


if __name__ == "__main__":
    main()
