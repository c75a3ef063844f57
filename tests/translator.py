#!/usr/bin/env python3
"""A second translator, to hold `blast` to: the rules of docs/ read once more, with no look at the proved code.

    python3 tests/translator.py FILE.smt2      prints what `blast` has to print for FILE

tests/reader.py has its reader of scripts, tests/rowlists.py the rows of every order; here are the interval keeper
(docs/KEEPERS.md), the workbook (docs/WORKBOOK.md) and the text (docs/TEXT.md). tests/rows.py prints row lists from it,
tests/reference.py makes the cases of the program `vectors`, tests/compare holds it and `blast` to solvers.
"""
import sys

from reader import Reader, Refused
from rowlists import Rows, order_rows, register, scheme_sum

LIMIT, SOURCES, ROWS, ASSERTIONS = 16384, 1024, 2048, 4096


def interval(code, op, k, a, b, c):
    """What is known of the result, of width k, from what is known of the operands."""
    top = 2**k - 1
    if code == "BvAdd" and a[1] + b[1] <= top:
        return a[0] + b[0], a[1] + b[1]
    if code == "BvSub" and a[0] >= b[1]:
        return a[0] - b[1], a[1] - b[0]
    if code == "BvAnd":
        return 0, min(a[1], b[1])
    if code in ("BvLshr", "BvUrem"):
        return 0, a[1]
    if code == "Extract" and a[1] // 2 ** op[2] <= top:
        return a[0] // 2 ** op[2], a[1] // 2 ** op[2]
    if code == "Ite":
        return min(b[0], c[0]), max(b[1], c[1])
    return 0, top


NUMBERS = "BvNot BvNeg BvAdd BvSub BvMul BvUdiv BvUrem BvAnd BvOr BvXor BvLshr BvShl".split()
TRUTHS = "Not And Or Implies".split()


def result_width(op, widths, refuse):
    """The width of the result, 0 of a truth value; `refuse` is told causes 6 and 7. Widths are those of the operands."""
    code = op[0]
    if code in TRUTHS:
        if any(widths):
            refuse(6)
        return 0
    if code == "Ite":
        if widths[0] or widths[1] != widths[2]:
            refuse(6)
        return widths[1]
    if code == "Equal":
        if widths[0] != widths[1]:
            refuse(6)
        return 0
    if not all(widths) or code != "Concat" and len(set(widths)) > 1:
        refuse(6)
    if code == "Extract":
        if not op[2] <= op[1] < widths[0]:
            refuse(7)
        return op[1] - op[2] + 1
    if code == "Concat":
        if sum(widths) > 32:
            refuse(7)
        return sum(widths)
    return widths[0] if code in NUMBERS else 0


class Workbook:
    """Source rows as (width, image, interval), a truth value having width 0; target rows; assertions."""

    def __init__(self, row_room=ROWS, scheme=scheme_sum):
        self.sources, self.rows, self.asserted, self.row_room, self.scheme = [], [], [], row_room, scheme

    def feed(self, orders):
        for place, act in orders:
            self.enter(place, act)

    def enter(self, place, act):
        def refuse(number):
            raise Refused(number, place, "order" if number < 8 else "workbook")

        if act[0] == "require":
            if not act[1] < len(self.sources):
                refuse(5)
            if self.sources[act[1]][0]:
                refuse(6)
            if len(self.asserted) + 1 > ASSERTIONS:
                refuse(9)
            self.asserted.append(self.sources[act[1]][1])
            return
        r = Rows(len(self.rows))
        width, image, known, asserted = getattr(self, act[0])(r, refuse, *act[1:])
        if len(self.sources) == SOURCES:
            refuse(8)
        if len(self.rows) + len(r.rows) > self.row_room or len(self.asserted) + len(asserted) > ASSERTIONS:
            refuse(9)
        self.sources.append((width, image, known))
        self.rows += r.rows
        self.asserted += asserted

    def declare(self, r, refuse, width):
        if not 1 <= width <= 32:
            refuse(7)
        x, fits = register(r, width)
        return width, x, (0, 2**width - 1), [fits]

    def constant(self, r, refuse, width, n):
        return width, r.number(n), (n, n), []

    def truth(self, r, refuse, b):
        return 0, r.add("Truth", str(b).lower()), (0, 1), []

    def apply(self, r, refuse, op, operands):
        if any(not row < len(self.sources) for row in operands):
            refuse(5)
        told = [self.sources[row] for row in operands]
        width = result_width(op, [t[0] for t in told], refuse)
        told += [(0, 0, (0, 0))] * (3 - len(told))
        (k, a, known_a), (j, b, known_b), (_, c, known_c) = told
        asserted = []
        if op[0] in ("BvAnd", "BvOr", "BvXor"):
            c, fits = register(r, k)
            asserted = [fits, self.scheme(r, k, a, b, c)]
        image = order_rows(r, op, k, j, known_a, known_b, a, b, c, "Int" if j else "Bool")
        return width, image, interval(op[0], op, width, known_a, known_b, known_c) if width else (0, 1), asserted


WORDS = {"Add": "+", "Sub": "-", "Times": "*", "Quot": "div", "Rem": "mod", "Equal": "=", "Less": "<", "AtMost": "<=",
         "Not": "not", "And": "and", "Or": "or", "Choose": "ite"}


def line(i, row):
    name, parts = row[0], row[1:]
    if name == "Unknown":
        return f"(declare-fun t{i} () Int)"
    if name == "Number":
        return f"(define-fun t{i} () Int {parts[0]})"
    if name == "Truth":
        return f"(define-fun t{i} () Bool {parts[0]})"
    sort = "Int" if name in ("Add", "Sub", "Times", "Quot", "Rem") else "Bool"
    if name == "Choose":
        sort, parts = parts[0], parts[1:]
    return f"(define-fun t{i} () {sort} ({WORDS[name]} {' '.join(f't{p}' for p in parts)}))"


def text(book):
    lines = ["(set-logic QF_NIA)"] + [line(i, row) for i, row in enumerate(book.rows)]
    lines += [f"(assert t{row})" for row in book.asserted] + ["(check-sat)"]
    return "\n".join(lines) + "\n"


def answer(script):
    """What `blast` prints for a script."""
    try:
        if len(script) > LIMIT:
            raise Refused(4, LIMIT, "text")
        book = Workbook()
        book.feed(Reader(script).script())
        return text(book)
    except Refused as refused:
        return str(refused)


if __name__ == "__main__":
    if len(sys.argv) != 2:
        sys.exit(__doc__)
    with open(sys.argv[1], "rb") as file:
        sys.stdout.write(answer(file.read()))
