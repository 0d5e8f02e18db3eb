#!/usr/bin/env python3
"""Writes families of files, runs a proved program on them, and prints a table of times.

A benchmark proves nothing and is no part of the gate. Build the programs first, with
(cd crates/horsat && rt run </dev/null) and (cd crates/costs && rt run <stdin).
Usage: bench/run.py [FAMILY ..]

The time is that of the processor, in whatever thread and in the system: the least of the runs counts.
In the environment:
CLOCK         if it is set, the time is that of the clock, from the start of a program to its end
OTHER         a command, as "/path/program word", that is run on the same file, alternately with ours, with the
              file's name as its last word; the table has its time, its memory and the ratio of ours to it
PROGRAM       which of our programs is run, with its words, in the place of the one that the family has; or
              several, as "costs, costs core" or "horsat, horsat --workers 4", which are run in turn and have a
              row each
RUNS          how often each is run (5)
WORKERS       with how many workers horsat runs (1)
INSTRUCTIONS  if it is set, instructions are counted by valgrind in the place of times, in one run of each
"""

import os
import re
import shlex
import subprocess
import sys
import tempfile
import time

TOP = os.path.dirname(os.path.dirname(os.path.abspath(__file__)))
MEBIBYTE = 1 << 20
OTHER = shlex.split(os.environ.get("OTHER", ""))
PROGRAMS = [shlex.split(words) for words in os.environ.get("PROGRAM", "").split(",") if words.strip()]
RUNS = int(os.environ.get("RUNS", "5"))
WORKERS = os.environ.get("WORKERS", "1")
INSTRUCTIONS = bool(os.environ.get("INSTRUCTIONS"))
CLOCK = bool(os.environ.get("CLOCK"))


def framed(rules, transitions):
    return "%BEGING\n" + "".join(rules) + "%ENDG\n%BEGINA\n" + "".join(transitions) + "%ENDA\n"


def plain(rules):
    """Rules of 16 atoms each; every rule and every state is reached."""
    lines = []
    for i in range(rules):
        args = " ".join(f"F{(i * 15 + j + 1) % rules}" for j in range(15))
        lines.append(f"F{i} -> a {args}.\n")
    return framed(lines, ["q0 a ->" + " q0" * 15 + ".\n"])


def pairs(states):
    """A loop of 101 rules, each met in every state, since 101 divides no size of the family.

    A rule and a state give two pairs: of its body, and of the nonterminal below.
    """
    rules = [f"F{i} -> a F{(i + 1) % 101}.\n" for i in range(101)]
    return framed(rules, [f"q{i} a -> q{(i + 1) % states}.\n" for i in range(states)])


def names(size):
    """As many different names as fit: terminals that occur once each."""
    lines, written, number = [], 0, 0
    while written < size and len(lines) < 20_000:
        args = " ".join(f"n{number + j}" for j in range(63))
        number += 63
        lines.append(f"F{len(lines)} -> z{len(lines)} {args}.\n")
        written += len(lines[-1])
    return framed(lines, ["q0 t -> q0.\n"])


def nested(size):
    """One rule of nested applications with 64 arguments of one byte each."""

    def term(room, depth):
        if depth == 0 or room < 256:
            return "b" if room < 256 else "(a" + " b" * 64 + ")"
        args, used = [], 0
        for i in range(64):
            args.append(term((room - used) // (64 - i), depth - 1))
            used += len(args[-1]) + 1
        return "(a " + " ".join(args) + ")"

    return framed(["S -> " + term(size, 4) + ".\n"], ["q0 a ->" + " q0" * 64 + ".\n", "q0 b -> .\n"])


def comment(size):
    """A comment up to the last rule."""
    return framed(["/*" + "x" * size + "*/\nS -> a S.\n"], ["q0 a -> q0.\n"])


def transitions(count):
    """Transitions of up to 10,000 states."""
    states = min(count, 10_000)
    lines = [f"q{i % states} t{i // states} -> q{(i * 7 + 1) % states}.\n" for i in range(count)]
    return framed(["S -> t0 S.\n"], lines)


def flow_many(functions):
    """Functions that are all handed to as many others, in three rules each and one more.

    The flow has about twice as many pairs as the square of the functions.
    """
    lines = ["S -> c.\n"]
    for i in range(functions):
        lines.append(f"G{i} x -> x.\nR{i} -> A0 G{i}.\n")
        lines.append(f"A{i} f -> b (f c) (A{i + 1} f).\n" if i + 1 < functions else f"A{i} f -> f c.\n")
    return framed(lines, ["q0 c -> .\n"])


def flow_few(rules):
    """A chain of calls, in which each parameter gets one point."""
    lines = ["S -> F0 c.\n"]
    for i in range(rules - 1):
        lines.append(f"F{i} x -> a (F{i + 1} x).\n" if i + 2 < rules else f"F{i} x -> x.\n")
    return framed(lines, ["q0 a -> q0.\n"])


def meetings(rules):
    """Functions with two parameters in a chain, the first of which is applied to the second.

    For each function of the chain each of the 350 that may stand for its first parameter meets each of the
    350 that may stand for its second one, while the pairs are about 1,400 for each.
    """
    lines = ["S -> M0.\n"]
    for i in range(rules):
        lines.append(f"C{i} f y -> b (f y) (C{i + 1} f y).\n" if i + 1 < rules else f"C{i} f y -> f y.\n")
    for j in range(350):
        lines.append(f"H{j} x -> x c.\nG{j} z -> c.\n")
        lines.append(f"M{j} -> b (C0 H{j} G{j}) M{j + 1}.\n" if j + 1 < 350 else f"M{j} -> C0 H{j} G{j}.\n")
    return framed(lines, ["q0 c -> .\n"])


def joined(rules):
    """Rules of 64 parameters, each joined to the next one's from the last down."""
    names = [" ".join(f"{letter}{j}" for j in range(64)) for letter in "xy"]
    lines = ["S -> c.\n"] + [f"G{k} {names[0]} -> c.\n" for k in range(rules)]
    lines += [f"E{k} {names[1]} -> b (G{k} {names[1]}) (G{k - 1} {names[1]}).\n" for k in range(rules - 1, 0, -1)]
    return framed(lines, ["q0 c -> .\n"])


def calls(rules, states):
    """Deep calls with one resource, which each call moves on or hands on; it may end in all states but the last."""
    lines = ["S -> F0 end.\n"]
    for i in range(rules):
        lines.append(f"F{i} k -> br (F{(i + 1) % rules} (step k)) (F{(i * 7 + 3) % rules} k).\n" if i % 16 else f"F{i} k -> br k (F{i + 1} k).\n")
    moves = [f"q{j} br -> q{j} q{j}.\nq{j} step -> q{(j + 1) % states}.\n" for j in range(states)]
    return framed(lines, moves + [f"q{j} end -> .\n" for j in range(states - 1)])


def functions(count):
    """Functions with eight types in all, handed through one combinator that applies its function twice."""
    lines = ["S -> M0.\n", "Ap f x -> f (f x).\n"]
    for i in range(count):
        lines.append(f"G{i} x -> {'s (' * (i % 8)}x{')' * (i % 8)}.\n")
        lines.append(f"M{i} -> br (Ap G{i} end) M{i + 1}.\n" if i + 1 < count else f"M{i} -> Ap G{i} end.\n")
    moves = [f"q{j} s -> q{(j + 1) % 8}.\n" for j in range(8)]
    return framed(lines, ["q0 br -> q0 q0.\n"] + moves + [f"q{j} end -> .\n" for j in range(7)])


def choices(rules):
    """Deep calls of functions that go on in one of eight ways, with one resource of 8 states, which half of the ways move on."""
    lines = ["S -> F0 end.\n"]
    for i in range(rules):
        calls = [f"(F{(i * (2 * w + 1) + w + 1) % rules} {'k' if w % 2 else '(step k)'})" for w in range(8)]
        lines.append(f"F{i} k -> br {' '.join(calls if i % 16 else ['k', *calls[1:]])}.\n")
    moves = [f"q{j} br ->{f' q{j}' * 8}.\nq{j} step -> q{(j + 1) % 8}.\n" for j in range(8)]
    return framed(lines, moves + [f"q{j} end -> .\n" for j in range(7)])


def thrice(count):
    """As functions, but the combinator applies its function three times."""
    return functions(count).replace("Ap f x -> f (f x).", "Ap f x -> f (f (f x)).")


def handles(count):
    """Handles that are opened in turn, any number of them, and closed in the reverse order."""
    lines = ["S -> H0 end.\n"]
    moves = ["p0 end -> .\n"]
    for i in range(count):
        rest = f"H{i + 1} (c{i} k)" if i + 1 < count else f"c{i} k"
        lines.append(f"H{i} k -> o{i} (br (c{i} k) ({rest})).\n")
        after = f"q{i + 1}" if i + 1 < count else f"p{i + 1}"
        moves.append(f"q{i} o{i} -> r{i}.\nr{i} br -> p{i + 1} {after}.\np{i + 1} c{i} -> p{i}.\n")
    return framed(lines, [moves[1]] + [moves[0]] + moves[2:])


def iterated(order, steps):
    """A function of this order is applied 2 to the power of `steps` times, and doubles each time how often one of the next lower
    order is applied: the family G(n,m) of the literature."""
    kept = [f"x{i}" for i in range(order - 2, -1, -1)]
    rules = ["S -> F0 " + " ".join(f"G{i}" for i in range(order - 1, -1, -1)) + ".\n"]
    rules += [f"F{i} f {' '.join(kept)} -> F{i + 1} (F{i + 1} f) {' '.join(kept)}.\n" for i in range(steps)]
    rules.append(f"F{steps} f {' '.join(kept)} -> G{order} f {' '.join(kept)}.\n")
    for k in range(order, 1, -1):
        own = kept[order - k :]
        rules.append(f"G{k} f {' '.join(own)} -> f (f {own[0]}) {' '.join(own[1:])}.\n")
    rules += ["G1 z -> a z.\n", "G0 -> c.\n"]
    return framed(rules, ["q0 a -> q1.\n", "q1 a -> q0.\n", "q0 c -> .\n"])


def numerals(twos, modulus=3):
    """Numerals of the orders 2 to 5, each of so many twos composed, that are applied to one another. The tree's length is told by
    its remainder."""
    lines = ["S -> C5 C4 C3 C2 A c.\n"]
    for order in range(5, 1, -1):
        own, more = f"x{order - 2}", "".join(f" x{i}" for i in range(order - 3, -1, -1))
        lines.append(f"T{order} f {own}{more} -> f (f {own}){more}.\n")
        applied = "f"
        for _ in range(twos):
            applied = f"(T{order} {applied})"
        lines.append(f"C{order} f {own}{more} -> {applied[1:-1]} {own}{more}.\n")
    moves = [f"q{i} a -> q{(i + 1) % modulus}.\n" for i in range(modulus)]
    return framed([*lines, "A z -> a z.\n"], [*moves, "q1 c -> .\n"])


def several(order, count, states, ends):
    """Functions that are handed on two at once, to one of order 3 that composes them both ways round, or to one of order 4 that does
    so twice. They move the state on, and the tree may end in some of the states."""
    lines = ["S -> M0.\n", "Comp f g x -> f (g x).\n", "Both p f g x -> p f g (p g f x).\n"]
    if order == 4:
        lines.append("All q p f g x -> q p f g (q p g f x).\n")
    head = "All Both Comp" if order == 4 else "Both Comp"
    for i in range(count):
        lines.append(f"G{i} x -> {'s (' * (i % states)}x{')' * (i % states)}.\n")
        call = f"{head} G{i} G{(3 * i + 1) % count} end"
        lines.append(f"M{i} -> br ({call}) M{i + 1}.\n" if i + 1 < count else f"M{i} -> {call}.\n")
    moves = [f"q{j} s -> q{(j + 1) % states}.\n" for j in range(states)]
    return framed(lines, ["q0 br -> q0 q0.\n", *moves, *(f"q{j} end -> .\n" for j in ends)])


def wide(count, states=20):
    """A call with as many arguments, each a function of two parameters applied, for which as many environments are asked as
    there are states. All choices of one for each argument lead to different environments, of which one join would make all
    that an entry is in."""
    params = " ".join(f"x{i} y{i}" for i in range(count))
    applied = " ".join(f"(x{i} y{i})" for i in range(count))
    body = "c"
    for i in reversed(range(count)):
        body = f"f{i} (r {body})" if body == "c" else f"f{i} (r ({body}))"
    rules = [
        f"S -> K {' '.join(['X Y'] * count)}.\n",
        f"K {params} -> H {applied}.\n",
        f"H {' '.join(f'f{i}' for i in range(count))} -> {body}.\n",
        "X u v -> u (u v).\n",
        f"Y v -> t {' '.join(['v'] * states)}.\n",
    ]
    everywhere = " ".join(f"q{i}" for i in range(states))
    transitions = [f"q{i} t -> {everywhere}.\nq{i} r -> {'s' if i else 'q0'}.\n" for i in range(states)]
    return framed(rules, [*transitions, f"s t -> {' '.join(['s'] * states)}.\n", "s r -> s.\n", "s c -> .\n"])


def asked_of(parts):
    """A term of x, y and v that asks x and y for these of their parts, the last first."""
    asked = "v"
    for j in parts:
        asked = f"x T{j} (r (y (u{j} (t{j} (y (r ({asked})))))))"
    return asked


def called(names):
    """The body that calls each of these functions, the first first."""
    body = "c"
    for name in reversed(names):
        body = f"{name} (r {body})" if body == "c" else f"{name} (r ({body}))"
    return body


def parted(count, ways):
    """The transitions by which a function may be asked for so many parts, and a branch has so many ways."""
    everywhere = " ".join(f"q{i}" for i in range(count))
    transitions = []
    for i in range(count):
        branches = " ".join(["s" if i else "q0"] * ways)
        transitions.append(f"q{i} t -> {everywhere}.\nq{i} r -> {'s' if i else 'q0'}.\nq{i} br -> {branches}.\n")
        for j in range(count):
            transitions.append(f"q{i} u{j} -> {'q0' if i == j else 's'}.\n")
            transitions.append(f"q{i} t{j} -> {'s' if i and i != j else f'q{j}' if i == 0 else 'q0'}.\n")
        if i:
            transitions.append(f"q{i} c -> .\n")
    last = [f"s t -> {' '.join(['s'] * count)}.\n", "s r -> s.\n", "s c -> .\n", f"s br -> {' '.join(['s'] * ways)}.\n"]
    last += [f"s u{j} -> s.\ns t{j} -> s.\n" for j in range(count)]
    return [*transitions, *last]


def dominated(count, sooner=False):
    """`wide` with arguments that share their parameters, and one more argument that asks for half of what all of them may ask
    for, or for the other half. So the others lead to far more environments together than are left of them with that one, which
    stands behind them, or where `sooner` is set, before them. The table is the same."""
    states = 2 * count
    args, used = ["(x y)"] * count, [*(f"f{i}" for i in range(count)), "g"]
    args, names = (["(Z x y)", *args], ["g", *used[:-1]]) if sooner else ([*args, "(Z x y)"], used)
    rules = [
        "S -> K X Y.\n",
        f"K x y -> H {' '.join(args)}.\n",
        f"H {' '.join(names)} -> {called(used)}.\n",
        "X u v -> u (u v).\n",
        f"Y v -> t {' '.join(['v'] * states)}.\n",
        "Z x y v -> br (A0 x y v) (A1 x y v).\n",
    ]
    rules += [f"A{half} x y v -> {asked_of(range(half, states, 2))}.\n" for half in range(2)]
    rules += [f"T{j} v -> t{j} v.\n" for j in range(states)]
    return framed(rules, parted(states, 2))


def crossed(count, ways=2):
    """A call whose arguments cross: in whichever of its ways one is typed, it asks for all of its own share of what they may ask
    for together, and for the part of that way in each other share. So all choices lead to one environment, and those for all
    arguments but one to as many as there are choices, in whatever order arguments are joined."""
    shares = [(share, by, way) for share in range(count) for by in range(count) if by != share for way in range(ways)]
    rules = [
        "S -> K X Y.\n",
        f"K x y -> H {' '.join(f'(Z{i} x y)' for i in range(count))}.\n",
        f"H {' '.join(f'f{i}' for i in range(count))} -> {called([f'f{i}' for i in range(count)])}.\n",
        "X u v -> u (u v).\n",
        f"Y v -> t {' '.join(['v'] * len(shares))}.\n",
    ]
    for i in range(count):
        rules.append(f"Z{i} x y v -> br {' '.join(f'(A{i}_{way} x y v)' for way in range(ways))}.\n")
        for way in range(ways):
            parts = [j for j, (share, by, of) in enumerate(shares) if share == i or (by, of) == (i, way)]
            rules.append(f"A{i}_{way} x y v -> {asked_of(parts)}.\n")
    rules += [f"T{j} v -> t{j} v.\n" for j in range(len(shares))]
    return framed(rules, parted(len(shares), ways))


def booleans(rules, count=10):
    """Rules that hand on booleans as selectors: each turns one of them, or opens a file where it is set, that is closed behind it."""
    kept = [f"b{j}" for j in range(count)]
    lines = ["S -> R0 end" + " F" * count + ".\n"]
    for i in range(rules):
        own = i % count
        turned = " ".join(f"(Not b{own})" if j == own else b for j, b in enumerate(kept))
        opened = f"(b{own} (open (R{(i * 7 + 3) % rules} (close k) {' '.join(kept)})) k)"
        lines.append(f"R{i} k {' '.join(kept)} -> br (R{(i + 1) % rules} k {turned}) {opened}.\n")
    lines += ["Not b x y -> b y x.\n", "T x y -> x.\n", "F x y -> y.\n"]
    moves = ["q0 br -> q0 q0.\n", "q1 br -> q1 q1.\n", "q0 open -> q1.\n", "q1 open -> q1.\n", "q1 close -> q0.\n", "q0 close -> q0.\n"]
    return framed(lines, [*moves, "q0 end -> .\n"])


def tested(rules, count=10):
    """Rules that hand on booleans as selectors: each tests one of them and sets it the other way. A file is open while the first is
    set."""
    kept = [f"b{j}" for j in range(count)]
    lines = ["S -> R0" + " F" * count + ".\n"]
    for i in range(rules):
        own = i % count
        left, right = (f"R{(i + 1) % rules} " + " ".join(to if j == own else b for j, b in enumerate(kept)) for to in "FT")
        one, other = (f"(close ({left}))", f"(open ({right}))") if own == 0 else (f"({left})", f"({right})")
        lines.append(f"R{i} {' '.join(kept)} -> br (b{own} {one} {other}) (R{(i * 7 + 3) % rules} {' '.join(kept)}).\n")
    lines += ["T x y -> x.\n", "F x y -> y.\n"]
    return framed(lines, ["q0 br -> q0 q0.\n", "q0 open -> q1.\n", "q1 br -> q1 q1.\n", "q1 close -> q0.\n"])


def cycle(k):
    """The file of --gen K, for any K."""
    lines = []
    for i in range(k):
        lines.append(f"s{i} br -> s{i} s{i}.\ns{i} a -> s{(i + 1) % k}.\n")
        if i + 1 < k:
            lines.append(f"s{i} c -> .\n")
    return framed(["S -> F c.\n", "F x -> br x (F (a x)).\n"], lines)


def aliases(rules):
    """A chain of rules that only name the next one, over two parameters."""
    lines = ["S -> A0 a c.\n"]
    for i in range(rules):
        lines.append(f"A{i} f x -> A{i + 1} f x.\n" if i + 1 < rules else f"A{i} f x -> f (f x).\n")
    return framed(lines, ["q0 a -> q1.\n", "q1 a -> q2.\n", "q2 a -> q2.\n", "q0 c -> .\n", "q1 c -> .\n"])


def bare(rules):
    """Rules without parameters, each of which names the next one twice."""
    return framed([f"F{i} -> a F{(i + 1) % rules} F{(i * 7 + 1) % rules}.\n" for i in range(rules)], ["q0 a -> q0 q0.\n"])


# How a family is made, its sizes and their unit, and the program that is run on it, with its words.
FAMILIES = {
    "plain": (plain, [5_000, 10_000, 20_000], "rules", "horsat"),
    "pairs": (pairs, [2_500, 5_000, 10_000], "states", "horsat"),
    "names": (names, [4 * MEBIBYTE, 8 * MEBIBYTE, 15 * MEBIBYTE], "bytes", "horsat"),
    "nested": (nested, [4 * MEBIBYTE, 8 * MEBIBYTE, 15 * MEBIBYTE], "bytes", "horsat"),
    "comment": (comment, [4 * MEBIBYTE, 8 * MEBIBYTE, 15 * MEBIBYTE], "bytes", "horsat"),
    "transitions": (transitions, [50_000, 100_000, 200_000], "transitions", "horsat"),
    "unary": (flow_few, [5_000, 10_000, 20_000], "rules", "horsat"),
    "bare": (bare, [5_000, 10_000, 20_000], "rules", "horsat"),
    "flow_many": (flow_many, [500, 700, 1_000, 1_400], "functions", "costs flow"),
    "meetings": (meetings, [150, 300, 600], "functions", "costs flow"),
    "joined": (joined, [1_000, 2_000, 4_000], "rules", "horsat"),
    "flow_few": (flow_few, [5_000, 10_000, 20_000], "rules", "costs flow"),
    "calls_4": (lambda rules: calls(rules, 4), [500, 1_000, 2_000], "rules", "horsat"),
    "calls_8": (lambda rules: calls(rules, 8), [500, 1_000, 2_000], "rules", "horsat"),
    "functions": (functions, [500, 1_000, 2_000], "functions", "horsat"),
    "choices": (choices, [101, 201, 401], "rules", "horsat"),
    "thrice": (thrice, [500, 1_000, 2_000], "functions", "horsat"),
    "handles": (handles, [50, 100, 200], "handles", "horsat"),
    "aliases": (aliases, [2_000, 4_000, 8_000], "rules", "horsat"),
    "gen": (cycle, [100, 200, 300], "states", "horsat"),
    "million": (cycle, [350, 500, 700], "states", "horsat"),
    "iterated_2": (lambda steps: iterated(2, steps), [50, 100, 200], "steps", "horsat"),
    "tables_3": (lambda steps: iterated(3, steps), [0, 1], "steps", "horsat"),
    "tables_4": (lambda steps: iterated(4, steps), [0], "steps", "horsat"),
    "iterated_3": (lambda steps: iterated(3, steps), [64, 128, 256], "steps", "horsat --quick"),
    "iterated_4": (lambda steps: iterated(4, steps), [64, 128, 256], "steps", "horsat --quick"),
    "iterated_5": (lambda steps: iterated(5, steps), [64, 128, 256], "steps", "horsat --quick"),
    "budget_3": (lambda steps: iterated(3, steps), [2, 11, 20], "steps", "horsat --entries 200000"),
    "budget_4": (lambda steps: iterated(4, steps), [1, 4], "steps", "horsat --entries 200000"),
    "budget_5": (lambda steps: iterated(5, steps), [1, 4], "steps", "horsat --entries 200000"),
    "large_3": (lambda steps: iterated(3, steps), [2, 11, 20], "steps", "horsat --entries 1000000"),
    "large_4": (lambda steps: iterated(4, steps), [1, 4], "steps", "horsat --entries 1000000"),
    "large_5": (lambda steps: iterated(5, steps), [1, 4], "steps", "horsat --entries 1000000"),
    "wide": (wide, [6, 8, 10], "arguments", "horsat"),
    "dominated": (dominated, [4, 6, 8], "arguments", "horsat"),
    "dominated_sooner": (lambda count: dominated(count, sooner=True), [4, 6, 8], "arguments", "horsat"),
    "crossed": (crossed, [4, 5, 6], "arguments", "horsat"),
    "several_3": (lambda count: several(3, count, 4, [0, 2]), [100, 200, 300], "functions", "horsat"),
    "several_3r": (lambda count: several(3, count, 4, [0]), [100, 200, 300], "functions", "horsat"),
    "several_4": (lambda count: several(4, count, 2, [0]), [50, 100, 200], "functions", "horsat"),
    "several_4r": (lambda count: several(4, count, 2, [1]), [50, 100, 200], "functions", "horsat"),
    "numerals": (numerals, [1, 2, 3], "twos", "horsat --quick"),
    "numerals_5": (lambda twos: numerals(twos, 5), [2, 3], "twos", "horsat --quick"),
    "booleans": (booleans, [50, 100, 200], "rules", "horsat --quick"),
    "booleans_20": (lambda rules: booleans(rules, 20), [100, 200], "rules", "horsat --quick"),
    "tested": (tested, [50, 100, 200], "rules", "horsat --quick"),
}


def program(name):
    return os.path.join(TOP, "crates", name, "out", name)


def words_of(words, path):
    """Our program with its words. Only horsat is told the file's name; the others read standard input."""
    name, *others = words
    if name != "horsat":
        return [program(name), *others]
    entries = [] if "--entries" in others else ["--entries", "1000000"]
    workers = [] if "--workers" in others else ["--workers", WORKERS]
    return [program(name), *workers, *entries, *others, path]


def programs_of(family):
    """Our programs that are run on the family, each with its words."""
    return PROGRAMS or [FAMILIES[family][3].split()]


def are_built(programs):
    return all(os.access(program(words[0]), os.X_OK) for words in programs)


def write(make, size, path):
    """Writes a file in a process of its own, since a run's peak memory is no less than this process's."""
    child = os.fork()
    if child == 0:
        with open(path, "w") as file:
            file.write(make(size))
        os._exit(0)
    os.waitpid(child, 0)


def run(words, path):
    """The processor's seconds, or those of the clock, the peak memory in MiB, the status and the answer of one run."""
    before = time.monotonic()
    with open(path) as file:
        child = subprocess.Popen(words, stdin=file, stdout=subprocess.PIPE, stderr=subprocess.STDOUT)
    answer = child.stdout.read().decode().strip()
    _, status, usage = os.wait4(child.pid, 0)
    seconds = time.monotonic() - before if CLOCK else usage.ru_utime + usage.ru_stime
    return seconds, usage.ru_maxrss / 1024, os.waitstatus_to_exitcode(status), answer


def counted(words, path):
    """The millions of instructions of one run, by valgrind, without its memory."""
    counter = ["valgrind", "--tool=callgrind", "--callgrind-out-file=/dev/null"]
    _, _, status, answer = run([*counter, *words], path)
    found = re.search(r"Collected : (\d+)", answer)
    told = [line for line in answer.splitlines() if not line.startswith("==")]
    return int(found.group(1)) / 1e6 if found else 0.0, 0.0, status, "\n".join(told).strip()


def measured(commands, path):
    """The least of the runs of each command. They are run in turn."""
    measure = counted if INSTRUCTIONS else run
    runs = [[] for _ in commands]
    for _ in range(1 if INSTRUCTIONS else RUNS):
        for words, rows in zip(commands, runs):
            rows.append(measure(words, path))
    return [(min(rows)[0], min(row[1] for row in rows), *min(rows)[2:]) for rows in runs]


def ratio(ours, other):
    return f"{ours / other:.2f}" if other else ""


def row_of(family, size, path, name, ours, before, other):
    """The row of one of our programs at one size. The name of what was run stands before the answer."""
    seconds, memory, status, answer = ours
    cells = f"{family:<12} {size:>9} {FAMILIES[family][2]:<11} {os.path.getsize(path) / MEBIBYTE:>8.2f} "
    cells += f"{seconds:>9.3f} {ratio(seconds, before):>6} {memory:>8.0f} "
    if other:
        theirs, beside, *_ = other
        cells += f"{theirs:>9.3f} {ratio(seconds, theirs):>6} {beside:>8.0f} {ratio(memory, beside):>6} "
    return f"{cells} {name}{status} {', '.join(answer.splitlines()[:2])}"


def rows_of(family, size, path, before):
    """A row for each of our programs at one size, and their times."""
    programs = programs_of(family)
    commands = [words_of(words, path) for words in programs] + ([[*OTHER, path]] if OTHER else [])
    found = measured(commands, path)
    ours, other = found[: len(programs)], found[len(programs)] if OTHER else None
    names = [" ".join(words) + ": " if len(programs) > 1 else "" for words in programs]
    rows = [row_of(family, size, path, *row, other) for row in zip(names, ours, before)]
    return rows, [one[0] for one in ours]


def main():
    chosen = sys.argv[1:] or list(FAMILIES)
    if not all(family in FAMILIES and are_built(programs_of(family)) for family in chosen):
        sys.exit(__doc__)
    unit = "10^6 ins" if INSTRUCTIONS else "seconds"
    heads = f"{'family':<12} {'size':>9} {'':<11} {'file MiB':>8} {unit:>9} {'growth':>6} {'peak MiB':>8} "
    print(heads + (f"{'other':>9} {'ratio':>6} {'peak MiB':>8} {'ratio':>6} " if OTHER else "") + " answer")
    with tempfile.TemporaryDirectory() as folder:
        path = os.path.join(folder, "file.hrs")
        for family in chosen:
            make, sizes, _, _ = FAMILIES[family]
            before = [None] * len(programs_of(family))
            for size in sizes:
                write(make, size, path)
                rows, before = rows_of(family, size, path, before)
                print("\n".join(rows), flush=True)


if __name__ == "__main__":
    main()
