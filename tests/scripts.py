"""Random scripts, well sorted and damaged, for tests/compare and tests/reference.py."""

TWO = "bvadd bvsub bvmul bvudiv bvurem bvand bvor bvxor bvlshr bvshl".split()
TESTS = "bvult bvule bvugt bvuge bvslt bvsle bvsgt bvsge =".split()


class Maker:
    """Makes scripts by a `random.Random`; registers have widths up to `widest`, terms are up to `deepest` deep."""

    def __init__(self, chance, widest=5, deepest=4):
        self.chance, self.widest, self.deepest, self.registers = chance, widest, deepest, []

    def number(self, k):
        n = self.chance.choice((0, 1, 2**k - 1, 2 ** (k - 1), self.chance.randrange(2**k)))
        spelling = self.chance.randrange(3)
        if spelling == 0 or spelling == 1 and k % 4:
            return f"#b{n:0{k}b}"
        return f"#x{n:0{k // 4}x}" if spelling == 1 else f"(_ bv{n} {k})"

    def leaf(self, k):
        of_width = [name for name, width in self.registers if width == k]
        return self.chance.choice(of_width) if of_width and self.chance.random() < 0.8 else self.number(k)

    def bits(self, k, depth):
        """A term of k bits."""
        if depth <= 1 or self.chance.random() < 0.15:
            return self.leaf(k)
        kind = self.chance.randrange(8)
        if kind == 0:
            return f"({self.chance.choice(('bvnot', 'bvneg'))} {self.bits(k, depth - 1)})"
        if kind == 1:
            return f"(ite {self.truth(depth - 1)} {self.bits(k, depth - 1)} {self.bits(k, depth - 1)})"
        if kind == 2 and k >= 2:
            j = self.chance.randrange(1, k)
            return f"(concat {self.bits(k - j, depth - 1)} {self.bits(j, depth - 1)})"
        if kind == 3:
            wide = self.chance.randrange(k, max(k, self.widest) + 1)
            lower = self.chance.randrange(wide - k + 1)
            return f"((_ extract {lower + k - 1} {lower}) {self.bits(wide, depth - 1)})"
        return f"({self.chance.choice(TWO)} {self.bits(k, depth - 1)} {self.bits(k, depth - 1)})"

    def truth(self, depth):
        """A term that is true or false."""
        if depth <= 1:
            return self.chance.choice(("true", "false"))
        kind = self.chance.randrange(8)
        if kind == 0:
            return f"(not {self.truth(depth - 1)})"
        if kind == 1:
            word = self.chance.choice(("and", "or"))
            return f"({word} {' '.join(self.truth(depth - 1) for _ in range(self.chance.choice((2, 2, 3, 4))))})"
        if kind == 2:
            return f"({self.chance.choice(('=>', '='))} {self.truth(depth - 1)} {self.truth(depth - 1)})"
        if kind == 3:
            return f"(ite {self.truth(depth - 1)} {self.truth(depth - 1)} {self.truth(depth - 1)})"
        k = self.chance.choice(self.registers)[1]
        return f"({self.chance.choice(TESTS)} {self.bits(k, depth - 1)} {self.bits(k, depth - 1)})"

    def script(self):
        self.registers = []
        lines = ["(set-logic QF_BV)"]
        for i in range(self.chance.randint(1, 3)):
            k = self.chance.randint(1, self.widest)
            name = self.chance.choice(("x", "y!", "|p|", "t", "counter_", "Z")) + str(i)
            name = name if name[0] != "|" else f"|p{i}|"
            lines.append(self.chance.choice((f"(declare-const {name} (_ BitVec {k}))", f"(declare-fun {name} () (_ BitVec {k}))")))
            self.registers.append((name, k))
        for _ in range(self.chance.randint(1, 3)):
            lines.append(f"(assert {self.truth(self.chance.randint(2, self.deepest))})")
        return "\n".join(lines + ["(check-sat)\n"]).encode()


def damaged(chance, script):
    """The script with one to three bytes or words taken out, put in or exchanged."""
    script = bytearray(script)
    for _ in range(chance.randint(1, 3)):
        at = chance.randrange(len(script))
        kind = chance.randrange(5)
        if kind == 0:
            del script[at]
        elif kind == 1:
            script.insert(at, chance.choice(b"() ;\nx0_#b|\x00\x7f\xff"))
        elif kind == 2:
            script[at] = chance.choice(b"() ;\nx0_#b|\x00\x7f\xff")
        elif kind == 3:
            words = bytes(script).split(b" ")
            i, j = chance.randrange(len(words)), chance.randrange(len(words))
            words[i], words[j] = words[j], words[i]
            script = bytearray(b" ".join(words))
        else:
            words = bytes(script).split(b" ")
            words[chance.randrange(len(words))] = chance.choice((b"true", b"bvadd", b"(_ bv3 2)", b"#b101", b"#xfffffffff", b"5", b"and", b"extract", b"assert", b"let", b"()", b"x0"))
            script = bytearray(b" ".join(words))
        if not script:
            script = bytearray(b"(")
    return bytes(script)
