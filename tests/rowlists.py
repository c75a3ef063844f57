"""The target rows of every order once more, from docs/ROWS.md and docs/SCHEMES.md, with no look at the proved code.

Operands, widths and the first index are free here; of tests/rows.py comes what has them free there too.
"""
from rows import reduced, scheme_sum


class Rows:
    """Target rows from an index on; each call adds one and gives its index."""

    def __init__(self, at=0):
        self.at, self.rows = at, []

    def add(self, name, *parts):
        self.rows.append((name,) + parts)
        return self.at + len(self.rows) - 1

    def number(self, n):
        return self.add("Number", n)


def register(r, k):
    """The six rows of an unknown of k bits: the unknown, and the row that is asserted of it."""
    x = r.add("Unknown")
    zero, size = r.number(0), r.number(2**k)
    low, high = r.add("AtMost", zero, x), r.add("Less", x, size)
    return x, r.add("And", low, high)


def after_and(r, code, k, a, b, c):
    if code == "BvAnd":
        return c
    total = r.add("Add", a, b)
    size = r.number(2**k)
    image = r.add("Rem", r.add("Sub", r.add("Rem", total, size), c), size)
    if code == "BvXor":
        image = r.add("Rem", r.add("Sub", image, c), size)
    return image


def shift(r, code, k, a, b, most):
    former = r.number(0)
    size = r.number(2**k) if code == "BvShl" else None
    for i in reversed(range(k)):
        test = r.add("Equal", b, r.number(i))
        weight = r.number(2**i)
        if code == "BvLshr":
            moved = r.add("Quot", a, weight)
        else:
            moved = r.add("Times", a, weight)
            if most * 2**i > 2**k - 1:
                moved = r.add("Rem", moved, size)
        former = r.add("Choose", "Int", test, moved, former)
    return former


def signed(r, k, a, b):
    half, two = r.number(2 ** (k - 1)), r.number(2)
    return [r.add("Sub", r.add("Times", two, r.add("Rem", x, half)), x) for x in (a, b)]


def divided(r, code, k, a, b, safe):
    name = "Quot" if code == "BvUdiv" else "Rem"
    if safe:
        return r.add(name, a, b)
    test = r.add("Equal", b, r.number(0))
    other = r.number(2**k - 1) if code == "BvUdiv" else a
    return r.add("Choose", "Int", test, other, r.add(name, a, b))


def order_rows(r, op, k, j, left, right, a, b, c, sort):
    """The rows of an operator on images a, b and c, the first two of k and j bits; its image. Of bvand, bvor and bvxor
    they are the rows after the and-scheme's, and c is the and-unknown."""
    code = op[0]
    (least_a, most_a), (least_b, most_b) = left, right
    top = 2**k - 1
    if code == "Extract":
        part = r.add("Quot", a, r.number(2 ** op[2]))
        n = op[1] - op[2] + 1
        return part if most_a // 2 ** op[2] < 2**n else r.add("Rem", part, r.number(2**n))
    if code == "Concat":
        return r.add("Add", r.add("Times", a, r.number(2**j)), b)
    if code == "BvNot":
        more = r.add("Add", a, r.number(1))
        return r.add("Sub", r.number(2**k), more)
    if code == "BvNeg":
        size = r.number(2**k)
        row = r.add("Sub", size, a)
        return row if least_a >= 1 else r.add("Rem", row, size)
    if code == "BvAdd":
        return reduced(r, r.add("Add", a, b), most_a + most_b <= top, k)
    if code == "BvSub":
        return reduced(r, r.add("Sub", a, b), least_a >= most_b, k)
    if code == "BvMul":
        return reduced(r, r.add("Times", a, b), most_a * most_b <= top, k)
    if code in ("BvUdiv", "BvUrem"):
        return divided(r, code, k, a, b, least_b >= 1)
    if code in ("BvAnd", "BvOr", "BvXor"):
        return after_and(r, code, k, a, b, c)
    if code in ("BvLshr", "BvShl"):
        return shift(r, code, k, a, b, most_a)
    if code in ("BvUlt", "BvUle", "BvUgt", "BvUge", "BvSlt", "BvSle", "BvSgt", "BvSge"):
        p, q = signed(r, k, a, b) if code[2] == "S" else (a, b)
        if code[3] == "g":
            p, q = q, p
        return r.add("Less" if code[4] == "t" else "AtMost", p, q)
    if code == "Implies":
        return r.add("Or", r.add("Not", a), b)
    if code == "Ite":
        return r.add("Choose", sort, a, b, c)
    return r.add(code, a) if code == "Not" else r.add(code, a, b)
