#!/usr/bin/env python3
"""Values of operators from a solver, to hold `source::apply` to.

Needs `z3` on the path, and `cvc5` for the second form:

    python3 tests/operators.py           writes crates/operators/stdin and crates/operators/stdout
    python3 tests/operators.py cvc5      asks cvc5 for the same values, and says where it differs from stdout

stdin has one line for each value: an operator and its operands, as crates/operators/src/main.rt says. Every
expected value is the solver's answer to the same term of SMT-LIB.
"""
import os
import random
import re
import shutil
import subprocess
import sys

ONE = "bvnot bvneg".split()
TWO = "bvadd bvsub bvmul bvudiv bvurem bvand bvor bvxor bvlshr bvshl".split()
TESTS = "bvult bvule bvugt bvuge bvslt bvsle bvsgt bvsge =".split()
# values worked out by hand: a solver that says otherwise is not believed
WORKED = {
    "bvand 4:12 4:10": "4:8",
    "bvor 4:12 4:10": "4:14",
    "bvxor 4:12 4:10": "4:6",
    "bvudiv 4:9 4:0": "4:15",
    "bvurem 4:9 4:0": "4:9",
    "bvneg 4:0": "4:0",
    "bvshl 4:3 4:0": "4:3",
    "bvshl 4:3 4:3": "4:8",
    "bvshl 4:3 4:4": "4:0",
    "extract 2 1 4:13": "2:2",
    "concat 2:2 4:5": "6:37",
    "bvmul 32:4294967295 32:4294967295": "32:1",
    "bvslt 4:8 4:7": "true",
    "bvslt 4:8 4:15": "true",
    "bvslt 4:15 4:8": "false",
    "bvslt 1:1 1:0": "true",
}
HERE = os.path.join(os.path.dirname(os.path.dirname(os.path.abspath(__file__))), "crates", "operators")


def boundary(k):
    """The numbers of k bits where something changes."""
    wanted = [0, 1, 2 ** (k - 1) - 1, 2 ** (k - 1), 2**k - 1, k - 1, k, k + 1]
    return sorted({n for n in wanted if 0 <= n < 2**k})


def pairs(k, chance):
    """Boundary numbers with each other, and some at random."""
    some = [(chance.randrange(2**k), chance.randrange(2**k)) for _ in range(8)]
    shifts = [(chance.randrange(2**k), chance.randrange(min(k, 2**k))) for _ in range(4)]
    return [(a, b) for a in boundary(k) for b in boundary(k)] + (some + shifts if k > 1 else [])


def bits(k, n):
    return f"{k}:{n}"


def around_the_sign():
    """The signed tests next to the largest, the smallest and the last negative number."""
    for op in TESTS[4:8]:
        for k, numbers in ((4, (7, 8, 15)), (1, (0, 1))):
            yield from (f"{op} {bits(k, a)} {bits(k, b)}" for a in numbers for b in numbers)


def on_numbers(chance):
    for k in (1, 4, 8, 32):
        for op in ONE:
            yield from (f"{op} {bits(k, a)}" for a in boundary(k) + [chance.randrange(2**k)])
        for a, b in pairs(k, chance):
            yield from (f"{op} {bits(k, a)} {bits(k, b)}" for op in TWO + TESTS)
            yield from (f"ite {t} {bits(k, a)} {bits(k, b)}" for t in ("true", "false"))


def on_parts(chance):
    for k in (1, 4, 8, 32):
        places = sorted({0, 1, k // 2 - 1, k // 2, k - 2, k - 1} & set(range(k)))
        for upper in places:
            for lower in places:
                if lower <= upper:
                    yield from (f"extract {upper} {lower} {bits(k, a)}" for a in (1, 2 ** (k - 1), 2**k - 1, chance.randrange(2**k)) if a < 2**k)
    for k, j in ((1, 1), (2, 4), (4, 4), (4, 8), (8, 8), (8, 24), (16, 16), (1, 31), (31, 1)):
        for a in (0, 1, 2**k - 1, chance.randrange(2**k)):
            yield from (f"concat {bits(k, a)} {bits(j, b)}" for b in (0, 1, 2**j - 1, chance.randrange(2**j)))


def on_truths():
    both = ("true", "false")
    yield from (f"not {p}" for p in both)
    for op in ("and", "or", "=>", "="):
        yield from (f"{op} {p} {q}" for p in both for q in both)
    yield from (f"ite {p} {q} {r}" for p in both for q in both for r in both)


def term(line):
    """The line's term of SMT-LIB."""
    words = line.split(" ")
    head, operands = words[0], words[1:]
    if head == "extract":
        head, operands = f"(_ extract {words[1]} {words[2]})", words[3:]
    written = []
    for word in operands:
        k, _, n = word.partition(":")
        written.append(f"(_ bv{n} {k})" if n else word)
    return f"({head} {' '.join(written)})"


def read(answer):
    """A value that a solver wrote, as the program writes it."""
    if answer in ("true", "false"):
        return answer
    if answer.startswith("#b"):
        return bits(len(answer) - 2, int(answer[2:], 2))
    if answer.startswith("#x"):
        return bits(4 * (len(answer) - 2), int(answer[2:], 16))
    n, k = re.fullmatch(r"\(_ bv(\d+) (\d+)\)", answer).groups()
    return bits(int(k), int(n))


def ask(solver, lines):
    """The solver's value of each line."""
    if shutil.which(solver) is None:
        sys.exit(f"operators.py: no `{solver}` on the path; the expected values come from it")
    text = "(set-option :produce-models true)\n(set-logic QF_BV)\n(check-sat)\n" + "".join(f"(get-value ({term(line)}))\n" for line in lines)
    command = {"z3": ["z3", "-in"], "cvc5": ["cvc5", "--lang=smt2", "-"]}[solver]
    said = subprocess.run(command, input=text, capture_output=True, text=True, check=False).stdout.split("\n")
    values = re.findall(r"(#b[01]+|#x[0-9a-fA-F]+|true|false|\(_ bv\d+ \d+\))\)\)$", "\n".join(said[1:]), re.M)
    if said[0] != "sat" or len(values) != len(lines):
        sys.exit(f"operators.py: {solver} answered {said[0]!r} and {len(values)} of {len(lines)} values")
    return [read(value) for value in values]


def main():
    solver = sys.argv[1] if len(sys.argv) > 1 else "z3"
    if solver not in ("z3", "cvc5"):
        sys.exit(__doc__)
    chance = random.Random(1)
    lines = list(dict.fromkeys([*WORKED, *around_the_sign(), *on_truths(), *on_numbers(chance), *on_parts(chance)]))
    values = ask(solver, lines)
    told = dict(zip(lines, values))
    if odd := [line for line in WORKED if told[line] != WORKED[line]]:
        sys.exit(f"operators.py: {solver} differs from what was worked out by hand at {', '.join(odd)}")
    if solver == "z3":
        for name, rows in (("stdin", lines), ("stdout", values)):
            with open(os.path.join(HERE, name), "w", encoding="ascii") as file:
                file.write("".join(row + "\n" for row in rows))
        print(f"{len(lines)} values")
        return
    with open(os.path.join(HERE, "stdout"), encoding="ascii") as file:
        expected = file.read().splitlines()
    wrong = [f"{a}: {solver} {b}, stdout {c}" for a, b, c in zip(lines, values, expected) if b != c]
    print("\n".join(wrong) or f"{solver} agrees on {len(lines)} values")
    sys.exit(bool(wrong) or len(expected) != len(lines))


if __name__ == "__main__":
    main()
