#!/usr/bin/env python3
"""Prints what took how long in the last check of a crate: seconds by module, from the times of the files that it kept.

It proves nothing and is no part of the gate. The times mean something after a check from nothing by one process:
(cd crates/NAME && rm -rf out/incremental && rt check --jobs 1)
Usage: bench/modules.py [--megabytes] crates/NAME [HOW MANY]

Of a function F, F.Lts is its transition system, F.Tie what ties it to the code, F.Proof the proof with its searches,
F.Answers the answers of our own; other names are files of lemmas and definitions. A pause of the machine counts, too.

--megabytes   the sizes of these files in the place of seconds: they don't hang on what else the machine does, and a try
              of an edit loads them. They, too, compare after checks from nothing: a later check leaves files that are gone
"""

import collections
import os
import re
import sys

KINDS = ("Lts", "Proof", "Tie", "Answers", "Kinds", "Code")


def kept(folder):
    """The kept files with the times at which they were written and their sizes, in the order of time."""
    files = [(at, name) for at, _, names in os.walk(folder) for name in names if name.endswith(".oantt")]
    looks = [(os.stat(os.path.join(at, name)), name) for at, name in files]
    return sorted((look.st_mtime_ns / 1e9, name, look.st_size / 1e6) for look, name in looks)


def module(name):
    """The module of a kept file, without its crate."""
    name = re.sub(r"(\.decls)?\.oantt$", "", name)
    return re.sub(r"^Rattle-\w+-(specs|proofs)\.", lambda found: f"{found[1]}: ", name, count=1)


def seconds_of(files):
    """What each file but the first took, the time since the one before it."""
    return [(name, time - before) for (before, _, _), (time, name, _) in zip(files, files[1:])]


def main():
    words = [it for it in sys.argv[1:] if it != "--megabytes"]
    files = kept(os.path.join(words[0], "out", "incremental")) if words else []
    if not files:
        sys.exit(__doc__)
    costs = [(name, size) for _, name, size in files] if "--megabytes" in sys.argv else seconds_of(files)
    modules, kinds = collections.Counter(), collections.Counter()
    for name, cost in costs:
        found = module(name)
        kind = found.rpartition(".")[2].partition("-")[0]
        modules[found] += cost
        kinds[kind if kind in KINDS else "rest"] += cost
    print(f"{sum(kinds.values()):8.1f} in all: " + ", ".join(f"{kind} {cost:.1f}" for kind, cost in kinds.most_common()))
    for found, cost in modules.most_common(int(words[1]) if len(words) > 1 else 30):
        print(f"{cost:8.1f} {found}")


if __name__ == "__main__":
    main()
