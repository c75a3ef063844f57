#!/usr/bin/env python3
"""Prints what crates/rows_tests has to print: the target rows of every order, from the table of rows in docs/ROWS.md.

python3 tests/rows.py > crates/rows_tests/stdout
"""
AT = 8
A, B, C = 1, 2, 3


class Rows:
    """Rows from the index AT on; each call adds one and gives its index."""

    def __init__(self):
        self.rows = []

    def add(self, name, *parts):
        self.rows.append(f"{name}({', '.join(str(p) for p in parts)})" if parts else name)
        return AT + len(self.rows) - 1

    def number(self, n):
        return self.add("Number", n)


def register(r, k):
    x = r.add("Unknown")
    zero = r.number(0)
    size = r.number(2**k)
    low = r.add("AtMost", zero, x)
    high = r.add("Less", x, size)
    r.add("And", low, high)
    return x


def bits_of_both(r, i, a, b, two):
    weight = r.number(2**i)
    bits = []
    for x in (a, b):
        bits.append(r.add("Rem", r.add("Quot", x, weight), two))
    return weight, bits


def both(r, bits, zero, one):
    p = r.add("Equal", bits[0], one)
    q = r.add("Equal", bits[1], one)
    return r.add("Choose", "Int", r.add("And", p, q), one, zero)


def scheme_sum(r, k, a, b, c):
    zero, one, two = r.number(0), r.number(1), r.number(2)
    total = zero
    for i in range(k):
        weight, bits = bits_of_both(r, i, a, b, two)
        total = r.add("Add", total, r.add("Times", weight, both(r, bits, zero, one)))
    return r.add("Equal", c, total)


def scheme_bitwise(r, k, a, b, c):
    zero, one, two = r.number(0), r.number(1), r.number(2)
    agree = r.add("Truth", "true")
    for i in range(k):
        weight, bits = bits_of_both(r, i, a, b, two)
        bit = r.add("Rem", r.add("Quot", c, weight), two)
        agree = r.add("And", agree, r.add("Equal", bit, both(r, bits, zero, one)))
    return agree


def after_and(r, op, k, c):
    if op == "BvAnd":
        return c
    total = r.add("Add", A, B)
    size = r.number(2**k)
    image = r.add("Rem", r.add("Sub", r.add("Rem", total, size), c), size)
    if op == "BvXor":
        image = r.add("Rem", r.add("Sub", image, c), size)
    return image


def shift(r, op, k, most):
    former = r.number(0)
    size = r.number(2**k) if op == "BvShl" else None
    for i in reversed(range(k)):
        test = r.add("Equal", B, r.number(i))
        weight = r.number(2**i)
        if op == "BvLshr":
            moved = r.add("Quot", A, weight)
        else:
            moved = r.add("Times", A, weight)
            if most * 2**i > 2**k - 1:
                moved = r.add("Rem", moved, size)
        former = r.add("Choose", "Int", test, moved, former)
    return former


def signed(r, k):
    half, two = r.number(2 ** (k - 1)), r.number(2)
    return [r.add("Sub", r.add("Times", two, r.add("Rem", x, half)), x) for x in (A, B)]


def reduced(r, row, fits, k):
    return row if fits else r.add("Rem", row, r.number(2**k))


def divided(r, op, name, k, safe):
    if safe:
        return r.add(name, A, B)
    test = r.add("Equal", B, r.number(0))
    other = r.number(2**k - 1) if op == "BvUdiv" else A
    return r.add("Choose", "Int", test, other, r.add(name, A, B))


def order(r, op, k, left, right, sort):
    """The rows of an operator on rows of k bits; its image, or None where it takes no such operands."""
    (least_a, most_a), (least_b, most_b) = left, right
    top = 2**k - 1
    if op.startswith("Extract"):
        u, l = (int(n) for n in op[8:-1].split(", "))
        if l > u or u >= k:
            return None
        part = r.add("Quot", A, r.number(2**l))
        n = u - l + 1
        return part if most_a // 2**l < 2**n else r.add("Rem", part, r.number(2**n))
    if op == "Concat":
        return None if k + k > 32 else r.add("Add", r.add("Times", A, r.number(2**k)), B)
    if op == "BvNot":
        more = r.add("Add", A, r.number(1))
        return r.add("Sub", r.number(2**k), more)
    if op == "BvNeg":
        size = r.number(2**k)
        row = r.add("Sub", size, A)
        return row if least_a >= 1 else r.add("Rem", row, size)
    if op == "BvAdd":
        return reduced(r, r.add("Add", A, B), most_a + most_b <= top, k)
    if op == "BvSub":
        return reduced(r, r.add("Sub", A, B), least_a >= most_b, k)
    if op == "BvMul":
        return reduced(r, r.add("Times", A, B), most_a * most_b <= top, k)
    if op in ("BvUdiv", "BvUrem"):
        return divided(r, op, "Quot" if op == "BvUdiv" else "Rem", k, least_b >= 1)
    if op in ("BvAnd", "BvOr", "BvXor"):
        return after_and(r, op, k, C)
    if op in ("BvLshr", "BvShl"):
        return shift(r, op, k, most_a)
    if op in ("BvUlt", "BvUle", "BvUgt", "BvUge", "BvSlt", "BvSle", "BvSgt", "BvSge"):
        p, q = signed(r, k) if op[2] == "S" else (A, B)
        if op[3] == "g":
            p, q = q, p
        return r.add("Less" if op[4] == "t" else "AtMost", p, q)
    if op == "Implies":
        return r.add("Or", r.add("Not", A), B)
    if op == "Ite":
        return r.add("Choose", sort, A, B, C)
    return r.add(op, A) if op == "Not" else r.add(op, A, B)


OPERATORS = (
    "BvNot BvNeg BvAdd BvSub BvMul BvUdiv BvUrem Extract(0,0) Extract(2,1) Extract(3,0) Extract(31,16) Extract(0,1) Concat BvAnd BvOr BvXor "
    "BvLshr BvShl BvUlt BvUle BvUgt BvUge BvSlt BvSle BvSgt BvSge Equal Not And Or Ite Implies"
).split()


def shown(rows, count):
    """So many rows of the table; rows that were not written are as they were."""
    for row in (rows + ["Truth(false)"] * 512)[:count]:
        print(row)


def others():
    for k in (0, 1, 4, 32, 33):
        r = Rows()
        granted = 1 <= k <= 32
        if granted:
            register(r, k)
        print(f"register of {k} bits {str(granted).lower()}")
        shown(r.rows, 7)
    for row in ("Number(9)", "Number(4294967295)", "Truth(true)", "Truth(false)"):
        print("value true")
        shown([row], 2)


def orders():
    for op in OPERATORS:
        op = op.replace(",", ", ")
        for k in (1, 4, 32):
            top = 2**k - 1
            bounds = [((0, top), (0, top)), ((1, 1), (1, 1)), ((top, top), (0, top)), ((0, top), (0, 0))]
            for variant, (left, right) in enumerate(bounds):
                r = Rows()
                image = order(r, op, k, left, right, "Int" if variant == 0 else "Bool")
                joins = op in ("BvAnd", "BvOr", "BvXor")
                print(f"{op} of {k} bits, bounds {variant}, {2 if joins else 0} assertions")
                if image is None:
                    print("no rows")
                    continue
                count = len(r.rows) + (6 if joins else 0)
                print(f"{count} rows, image {image}")
                shown(r.rows, count + 1)


def ands():
    for op in ("BvAnd", "BvOr", "BvXor", "BvAdd"):
        for k in (1, 4, 32, 33):
            for name, scheme in (("sum", scheme_sum), ("bitwise", scheme_bitwise)):
                print(f"{op} of {k} bits by {name}")
                if op == "BvAdd" or k == 33:
                    print("Refusal { cause: Range, at: 8 }")
                    continue
                r = Rows()
                c = register(r, k)
                answer = scheme(r, k, A, B, c)
                image = after_and(r, op, k, c)
                print(f"{len(r.rows)} rows, answer {answer}, image {image}")
                shown(r.rows, len(r.rows))


if __name__ == "__main__":
    others()
    orders()
    ands()
