#!/usr/bin/env python3
"""Runs the toolchain's gate and prints what it costs: processor seconds by crate, of its check, its tests and its edits.

It looks at the prover's processes from outside, by Linux's /proc, and changes nothing of the run, whose own output goes to
standard error. What an earlier run kept on this machine isn't proved again, and counts as nothing: `--anew` proves all.
A process is looked at every fifth of a second, so up to that is lost of each. It proves nothing and is no part of the gate.
Usage, at the top of the repository: bench/gate.py [--edits] [WORDS OF rt ci ..], as bench/gate.py --anew

--edits   also each edit, with its seconds

Of a crate with edits the column of edits has the second check, over which they are tried, each try, and the look at the end
whether all is proved as before. The check of a program has its compilation by both compilers.
"""

import collections
import os
import re
import resource
import subprocess
import sys
import time

TOP = os.path.dirname(os.path.dirname(os.path.abspath(__file__)))
TICKS = os.sysconf("SC_CLK_TCK")
EVERY = 0.2


class Process:
    """A process of the prover or of a compiler that it calls: what it works on, and its seconds so far."""

    def __init__(self, folder):
        words = open(f"{folder}/cmdline", encoding="utf-8", errors="replace").read().split("\0")
        self.is_watched = os.path.basename(words[0]) == "rattle" and words[1:2] in (["build"], ["check"])
        if not self.is_watched:
            return
        behind = dict(zip(words, words[1:]))
        self.crate, self.edit, over = behind.get("--crate-name", ""), None, behind.get("--incremental", "")
        if "/rt-edit-" in os.readlink(f"{folder}/cwd"):
            self.kind = "edits"
            self.edit = int(os.path.basename(over)) if os.path.basename(over).isdigit() else None
        else:
            self.kind = "tests" if "--test" in words else "check"
        self.seconds = 0.0

    def look(self, folder):
        fields = open(f"{folder}/stat", encoding="utf-8", errors="replace").read().rpartition(")")[2].split()
        # Its own time, and that of what it called and has seen end.
        self.seconds = max(self.seconds, sum(int(it) for it in fields[11:15]) / TICKS)


def below(parent):
    """The processes of this machine that descend from one, by their folders in /proc."""
    parents = {}
    for name in filter(str.isdigit, os.listdir("/proc")):
        try:
            fields = open(f"/proc/{name}/stat", encoding="utf-8", errors="replace").read().rpartition(")")[2].split()
        except OSError:
            continue
        parents[int(name)] = int(fields[1])
    children = collections.defaultdict(list)
    for child, of in parents.items():
        children[of].append(child)
    found, left = [], [parent]
    while left:
        for child in children[left.pop()]:
            found.append(child)
            left.append(child)
    return found


def look(now, ended, running):
    """Notes the seconds of the prover's processes among these, and which of those that ran have ended."""
    for number in now:
        folder = f"/proc/{number}"
        try:
            # Between its start and the call of the prover a process has the words of its parent.
            process = running.get(number) or Process(folder)
            if process.is_watched:
                process.look(folder)
                running[number] = process
        except (OSError, ValueError):
            pass
    for number in [it for it in running if it not in now]:
        ended.append(running.pop(number))


def watch(run):
    """All processes of the prover under the run, once it has ended or was interrupted."""
    ended, running = [], {}
    while run.poll() is None:
        try:
            look(below(run.pid), ended, running)
            time.sleep(EVERY)
        except KeyboardInterrupt:
            # Whoever interrupts it sees what it cost so far.
            run.terminate()
    return [*ended, *running.values()]


def edits_of(crate):
    """The names of a crate's edits, in the order in which they are tried."""
    folder = f"{TOP}/crates/{crate}/must-fail"
    return sorted(it[:-5] for it in os.listdir(folder) if it.endswith(".edit")) if os.path.isdir(folder) else []


def crates():
    """The crates of the repository, in the order of crates.txt."""
    lines = open(f"{TOP}/crates.txt", encoding="utf-8").read().splitlines()
    return [found[1] for found in (re.match(r" *([a-z0-9_]+)[^#:]*:", it) for it in lines) if found]


def show(processes, shows_edits):
    costs, tries = collections.Counter(), collections.Counter()
    for it in processes:
        costs[it.crate, it.kind] += it.seconds
        if it.edit is not None:
            tries[it.crate, it.edit] += it.seconds
    print("| Crate | Check | Tests | Edits | Number of edits |\n|---|---|---|---|---|")
    for crate in crates():
        names = edits_of(crate)
        row = [f"{costs[crate, kind]:.0f}" if costs[crate, kind] else "" for kind in ("check", "tests", "edits")]
        if not any(row):
            continue
        print(f"| `{crate}` | {' | '.join(row)} | {len(names) or ''} |")
        for number, name in enumerate(names) if shows_edits else ():
            print(f"    {tries[crate, number]:6.1f} {name}")
    sums = [sum(costs[it] for it in costs if it[1] == kind) / 60 for kind in ("check", "tests", "edits")]
    print("In minutes: checks {:.1f}, tests {:.1f}, edits {:.1f}".format(*sums))


def main():
    words = [it for it in sys.argv[1:] if it != "--edits"]
    start = time.time()
    with subprocess.Popen(["rt", "ci", *words], cwd=TOP, stdin=subprocess.DEVNULL, stdout=sys.stderr) as run:
        processes = watch(run)
    show(processes, "--edits" in sys.argv)
    used = resource.getrusage(resource.RUSAGE_CHILDREN)
    whole = (used.ru_utime + used.ru_stime) / 60
    print(f"The whole: {whole:.1f} processor minutes, tests and programs run, in {(time.time() - start) / 60:.1f} minutes")
    sys.exit(run.returncode)


if __name__ == "__main__":
    main()
