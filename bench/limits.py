#!/usr/bin/env python3
"""limits.py PROGRAM: a file at each limit, one below it and one above, through PROGRAM: answers, seconds of the processor, and memory.

The file one below and the one at the limit must not be refused for it, and the one above must, with the limit's line. Prints a table
in the form of docs/MEASUREMENTS.md; ends with 1 where an answer is another one, or where a run takes more than ten seconds or 1 GiB.
The seconds and the memory are those of the run at the limit, with the default of four workers.
"""
import os
import subprocess
import sys
import tempfile

SECONDS = 10
MEBIBYTES = 1024


def scheme(rules, transitions):
    return "%BEGING\n" + "\n".join(rules) + "\n%ENDG\n%BEGINA\n" + "\n".join(transitions) + "\n%ENDA\n"


def names(stem, count):
    return [f"{stem}{i}" for i in range(count)]


def file_bytes(n):
    """20,000 rules with names of 200 bytes, each calling three others, and a comment up to n bytes."""
    long = [f"N{i}".ljust(200, "n") for i in range(20_000)]
    rules = [f"{long[i]} -> b {long[(i * 7 + 1) % 20_000]} {long[(i * 3 + 2) % 20_000]} {long[(i + 1) % 20_000]}." for i in range(20_000)]
    text = scheme(rules, ["q0 b -> q0 q0 q0."])
    return text + "/*" + "c" * (n - len(text) - 4) + "*/"


def name_bytes(n):
    return scheme([f"S -> {'a' * n}."], [f"q0 {'a' * n} -> ."])


def rules(n):
    return scheme([f"N{i} -> b N{(i + 1) % n} N{(i * 7 + 3) % n}." for i in range(n)], ["q0 b -> q0 q0."])


def parameters(n):
    xs = names("x", n)
    return scheme([f"S -> F {'c ' * min(n, 64)}.", f"F {' '.join(xs)} -> b x0 x{n - 1}."], ["q0 b -> q0 q0.", "q0 c -> ."])


def depth(n):
    return scheme(["S -> " + "a (" * n + "c" + ")" * n + "."], ["q0 a -> q0.", "q0 c -> ."])


def arguments(n):
    return scheme(["S -> b " + "S " * n + "."], ["q0 b -> " + "q0 " * min(n, 64) + "."])


def transitions(n):
    """20 states, of which each reads all of the terminals but that the last pairs are left out."""
    lines = [f"q{i % 20} a{i // 20} -> q{(i * 7 + 1) % 20} q{(i * 3 + 2) % 20}." for i in range(n)]
    return scheme(["S -> F S.", "F x -> a0 x (a1 x x)."], lines)


def children(n):
    return scheme(["S -> c."], ["q0 c -> .", "q0 b -> " + "q0 " * n + "."])


def states(n):
    return scheme(["S -> a S."], [f"q{i} a -> q{(i + 1) % n}." for i in range(n)])


def sort_size(n):
    """A rule whose parameters are 15 functions of 31 arguments and trees; each size is odd."""
    functions, trees = 15, (n - 1 - 15 * (2 + 2 * 31)) // 2
    fs, xs = names("f", functions), names("x", trees)
    body = "b0 " + " ".join(f"({f} {'x0 ' * 31})" for f in fs)
    rules = [f"S -> F {'t ' * functions}{'c ' * trees}.", f"F {' '.join(fs + xs)} -> {body}."]
    return scheme(rules, [f"q0 t -> {'q0 ' * 31}.", f"q0 b0 -> {'q0 ' * functions}.", "q0 c -> ."])


def rule_length(n):
    """A rule of one parameter that stands for a function of n - 1."""
    xs = names("x", n - 1)
    return scheme(["S -> c.", "F x -> H.", f"H {' '.join(xs)} -> x0."], ["q0 c -> ."])


def points(n):
    """Rules of 50 points each; the last has what is left."""
    whole, left = divmod(n, 50)
    lines = [f"N{i} -> b " + " ".join(f"N{(i * 7 + k) % whole}" for k in range(49)) + "." for i in range(whole)]
    if left:
        lines.append("Last -> last " + " ".join(f"N{k}" for k in range(left - 1)) + ".")
    return scheme(lines, ["q0 b -> " + "q0 " * 49 + "."])


def grouped(atoms):
    """A term over 2,000 atoms: 50 times 40."""
    return "b " + " ".join("(d " + " ".join(atoms[at : at + 40]) + ")" for at in range(0, 2_000, 40))


def flow(n):
    """Functions that come to one parameter, which is applied 2,000 times: 2,002 pairs for each function; the others come one by one."""
    count, left = divmod(n, 2_002)
    lines = [f"S -> {grouped([f'(R G{k})' for k in range(count)] + ['c'] * (2_000 - count))}.", f"R f -> {grouped(['(f c)'] * 2_000)}."]
    lines += [f"G{k} x -> x." for k in range(count)] + ["U x -> x."]
    for at in range(0, left, 40):
        here = min(40, left - at)
        lines.append(f"T{at} -> e{here} " + " ".join(["(U c)"] * here) + ".")
    return scheme(lines, ["q0 b -> " + "q0 " * 50 + ".", "q0 d -> " + "q0 " * 40 + ".", "q0 c -> ."])


# name, limit, what is one step of it, its file, the line past it
LIMITS = (
    ("bytes of a file", 16_777_216, 1, file_bytes, "limit: file"),
    ("bytes of a name", 200, 1, name_bytes, "limit: name"),
    ("rules", 20_000, 1, rules, "limit: rules"),
    ("parameters of a rule", 64, 1, parameters, "limit: parameters"),
    ("open parentheses", 200, 1, depth, "limit: depth"),
    ("arguments of one application", 64, 1, arguments, "limit: arguments"),
    ("transitions", 200_000, 1, transitions, "limit: transitions"),
    ("states on the right of a transition", 64, 1, children, "limit: children"),
    ("states", 10_000, 1, states, "limit: states"),
    ("size of a sort (odd)", 999, 2, sort_size, "limit: sort of rule 2"),
    ("parameters of a lengthened rule", 64, 1, rule_length, "limit: length of rule 2"),
    ("points", 500_000, 1, points, "limit: points"),
    ("pairs of the flow", 4_000_000, 1, flow, "limit: flow"),
)


def answer(program, name):
    """Runs it on the file: its first line, the processor's seconds, and the most memory in MiB."""
    with tempfile.TemporaryFile() as out, tempfile.TemporaryFile() as err:
        process = subprocess.Popen([program, name], stdin=subprocess.DEVNULL, stdout=out, stderr=err)
        _, _, used = os.wait4(process.pid, 0)
        out.seek(0)
        err.seek(0)
        lines = (out.read() or err.read()).decode(errors="replace").splitlines()
    said = [line for line in lines if "not proved" not in line] or [""]
    return said[0], used.ru_utime + used.ru_stime, used.ru_maxrss / 1024


def written(text, at, name):
    """Writes the file in a process of its own, so that this one stays small: a run's memory counts from what its parent has."""
    process = os.fork()
    if not process:
        with open(name, "w") as file:
            file.write(text(at))
        os._exit(0)
    if os.waitpid(process, 0)[1]:
        sys.exit("limits.py: a file could not be written")
    return os.path.getsize(name)


def main():
    program, bad = sys.argv[1], 0
    print("| Limit | Bytes | One below | At it | Seconds | MiB | One above |")
    print("|---|---|---|---|---|---|---|")
    with tempfile.TemporaryDirectory() as folder:
        name = os.path.join(folder, "file.hrs")
        for what, limit, step, text, line in LIMITS:
            row = []
            for at in (limit - step, limit, limit + step):
                row.append((written(text, at, name), *answer(program, name)))
            (_, below, *_), (size, here, seconds, memory), (_, above, *_) = row
            print(f"| {what}: {limit:,} | {size:,} | {below} | {here} | {seconds:.2f} | {memory:.0f} | {above} |", flush=True)
            bad += line in (below, here) or above != line or seconds > SECONDS or memory > MEBIBYTES
    if bad:
        sys.exit(f"limits.py: {bad} rows aren't as they should be")


if __name__ == "__main__":
    main()
