#!/usr/bin/env python3
"""An independent reading of the rules, to hold `blast` to.

Written from docs/SCRIPTS.md, docs/ROWS.md, docs/TEXT.md and docs/REFUSALS.md, with regular expressions and
no look at the proved code. It makes the cases of the program `vectors` and what it must answer:

    python3 tests/reference.py          writes crates/vectors/stdin and crates/vectors/stdout

stdin has one script a line: pieces in hexadecimal between spaces, `HEX*N` being a piece N times. stdout has, for
each, a line `case N` and then what `blast` prints.
"""
import os
import random
import re
import sys

OPERATORS = """bvnot bvneg bvadd bvsub bvmul bvudiv bvurem extract concat bvand bvor bvxor bvlshr bvshl
bvult bvule bvugt bvuge bvslt bvsle bvsgt bvsge = not and or ite =>""".split()
RESERVED = set(OPERATORS) | set("set-logic declare-const declare-fun assert check-sat _ let true false".split())

LIMIT, ORDERS, NAMES, SOURCES, ROWS, ASSERTIONS = 16384, 1024, 256, 1024, 2048, 4096


class Refused(Exception):
    def __init__(self, number, place, layer):
        super().__init__(f"refused {number} at {place} in {layer}\n")


BLANK = re.compile(rb"(?:[ \t\r\n]|;[^\r\n]*)*")
TOKEN = re.compile(rb"[()]|[!-'*-:<-~]+")
NUMERAL = re.compile(rb"(?:0|[1-9][0-9]*)\Z")
CONSTANT = re.compile(rb"#(?:b[01]+|x[0-9A-Fa-f]+)\Z")


class Tokens:
    """The tokens of a script, one after another; None is its end."""

    def __init__(self, script):
        self.script, self.at = script, 0

    def next(self):
        place = BLANK.match(self.script, self.at).end()
        if place == len(self.script):
            self.at = place
            return None, place
        found = TOKEN.match(self.script, place)
        if not found:
            raise Refused(1, place, "text")
        text = found.group()
        if text[:1].isdigit() and not (NUMERAL.match(text) and len(text) <= 10 and int(text) < 2**32):
            raise Refused(1, place, "text")
        if text[:1] == b"#" and not CONSTANT.match(text):
            raise Refused(1, place, "text")
        self.at = found.end()
        return text, place

    def want(self, *texts):
        for text in texts:
            found, place = self.next()
            if found != text:
                raise Refused(1, place, "text")
        return place

    def name(self):
        text, place = self.next()
        if text is None or text in (b"(", b")") or text[:1].isdigit() or text[:1] == b"#":
            raise Refused(1, place, "text")
        return text, place

    def numeral(self):
        text, place = self.next()
        if text is None or not text[:1].isdigit():
            raise Refused(1, place, "text")
        return int(text)


def orders_of(script):
    """The places and widths of the registers that a script declares."""
    tokens, orders, names = Tokens(script), [], []
    tokens.want(b"(", b"set-logic", b"QF_BV", b")")
    while True:
        place = tokens.want(b"(")
        word, at = tokens.name()
        if word == b"check-sat":
            tokens.want(b")", None)
            return orders
        if word not in (b"declare-const", b"declare-fun"):
            raise Refused(1, at, "text")
        name, at = tokens.name()
        if name.decode("latin1") in RESERVED or name in names:
            raise Refused(2, at, "text")
        if len(names) == NAMES:
            raise Refused(4, at, "text")
        if word == b"declare-fun":
            tokens.want(b"(", b")")
        tokens.want(b"(", b"_", b"BitVec")
        width = tokens.numeral()
        tokens.want(b")")
        at = tokens.want(b")")
        if len(orders) == ORDERS:
            raise Refused(4, at, "text")
        orders.append((place, width))
        names.append(name)


def text_of(orders):
    rows, asserted = [], []
    for count, (place, width) in enumerate(orders):
        if not 1 <= width <= 32:
            raise Refused(7, place, "order")
        if count == SOURCES:
            raise Refused(8, place, "workbook")
        if len(rows) + 6 > ROWS or len(asserted) + 1 > ASSERTIONS:
            raise Refused(9, place, "workbook")
        x = len(rows)
        rows += [
            f"(declare-fun t{x} () Int)",
            f"(define-fun t{x + 1} () Int 0)",
            f"(define-fun t{x + 2} () Int {2 ** width})",
            f"(define-fun t{x + 3} () Bool (<= t{x + 1} t{x}))",
            f"(define-fun t{x + 4} () Bool (< t{x} t{x + 2}))",
            f"(define-fun t{x + 5} () Bool (and t{x + 3} t{x + 4}))",
        ]
        asserted.append(x + 5)
    lines = ["(set-logic QF_NIA)"] + rows + [f"(assert t{r})" for r in asserted] + ["(check-sat)"]
    return "\n".join(lines) + "\n"


def answer(script):
    """What `blast` prints."""
    try:
        if len(script) > LIMIT:
            raise Refused(4, LIMIT, "text")
        return text_of(orders_of(script))
    except Refused as refused:
        return str(refused)


def declared(names, width=b"1", form=b"(declare-const %s (_ BitVec %s))"):
    return b"(set-logic QF_BV)" + b"".join(form % (n, width) for n in names) + b"(check-sat)"


def cases():
    example = b"(set-logic QF_BV)(declare-const x (_ BitVec 4))(check-sat)"
    both = b"; a comment\r(set-logic\tQF_BV) \n(declare-fun |a b| () (_ BitVec 8))\r\n(declare-const y1 (_ BitVec 32)) ; end\n(check-sat)\n; last"
    yield example
    yield declared([])
    yield both
    yield both.replace(b"|a b|", b"|ab|")
    yield b""
    # one byte, every one of them
    for b in range(256):
        yield bytes([b])
    # every byte after a name, and in the place of a blank
    for b in (0, 1, 9, 10, 11, 12, 13, 31, 32, 33, 35, 39, 40, 41, 42, 48, 58, 59, 60, 124, 126, 127, 128, 160, 255):
        yield example.replace(b"x", b"x" + bytes([b]))
        yield example.replace(b" (_", bytes([b]) + b"(_")
        yield example + bytes([b])
        yield bytes([b]) + example
    # cut short at every byte
    for script in (example, both.replace(b"|a b|", b"ab")):
        for n in range(len(script)):
            yield script[:n]
    # comments that never end, carriage returns alone, many blanks
    yield b";" + example
    yield b";\r" + example
    yield example + b";"
    yield example.replace(b")(", b")\r(")
    yield example.replace(b" ", b" ; ( \n")
    yield example.replace(b" ", b" ;\r;\n\t ")
    # widths
    for width in b"0 1 2 31 32 33 64 00 007 010 4294967295 4294967296 4294967297 18446744073709551616 1x x #b1 -1 +1 1.0 () 340282366920938463463374607431768211456".split():
        yield declared([b"x"], width)
        yield declared([b"x", b"y"], width, b"(declare-fun %s () (_ BitVec %s))")
    # names
    for name in sorted(RESERVED):
        yield declared([name.encode()])
    for name in b"bvaddx bvad QF_BV BitVec bv5 extract1 |x| x! ~!@$%^&*_-+=<>.?/ a;b 1a #b1 #b #b2 #x #xG #bx #x0g #q # 'a \"a\" tru falsey _1 -".split():
        yield declared([name])
        yield declared([name, name])
    yield declared([b"a", b"b", b"a"])
    yield declared([b"ab", b"a", b"b", b"abc"])
    yield declared([b"a", b"A"])
    # words in the wrong place
    for word in b"assert push exit set-info declare-constx declare check-sa check-satt ( ) 1 #b1".split():
        yield example.replace(b"declare-const", word)
        yield example.replace(b"check-sat", word)
        yield example.replace(b"set-logic", word)
        yield example.replace(b"QF_BV", word)
        yield example.replace(b"BitVec", word)
        yield example.replace(b"_", word)
    yield b"(set-logic QF_BV)(assert true)(check-sat)"
    yield example + b"(check-sat)"
    yield example + b" x"
    yield example + example
    yield b"(set-logic QF_BV)(declare-fun f ((_ BitVec 4)) (_ BitVec 4))(check-sat)"
    yield b"(set-logic QF_BV)(declare-fun f (_ BitVec 4))(check-sat)"
    yield b"(set-logic QF_BV)(declare-const x () (_ BitVec 4))(check-sat)"
    yield b"(set-logic QF_BV)(declare-const x (_ BitVec 0))(declare-const x (_ BitVec 4))(check-sat)"
    yield b"(set-logic QF_BV)(declare-const x (_ BitVec 4))(declare-const y (_ BitVec 33))(check-sat)"
    # many registers: 256 names are taken
    some = [b"r%d" % i for i in range(257)]
    yield declared(some[:255], b"8")
    yield declared(some[:256], b"8")
    yield declared(some[:256], b"8", b"(declare-fun %s () (_ BitVec %s))")
    yield declared(some[:257], b"8")
    yield declared(some[:256] + [b"not"], b"8")
    # long scripts
    frame = declared([b"\0"]).split(b"\0")
    for n in (16383, 16384, 16385, 20000):
        yield (example, 1), (b" ", n - len(example))
        yield ((b";", n),)
        yield ((b"(", n),)
        yield ((b"9", n),)
        yield (b"#b", 1), (b"1", n - 2)
        yield (frame[0], 1), (b"n", n - len(frame[0]) - len(frame[1])), (frame[1], 1)
    # random damage
    chance = random.Random(1)
    for _ in range(400):
        script = bytearray(declared([b"a", b"bc"], b"12", chance.choice((b"(declare-fun %s () (_ BitVec %s))", b"(declare-const %s (_ BitVec %s))"))))
        for _ in range(chance.randint(1, 3)):
            at = chance.randrange(len(script))
            kind = chance.randrange(3)
            if kind == 0:
                del script[at]
            elif kind == 1:
                script.insert(at, chance.choice(b"() ;\nx0_#b|\x00\x7f\xff"))
            else:
                script[at] = chance.choice(b"() ;\nx0_#b|\x00\x7f\xff")
        yield bytes(script)


def main():
    here = os.path.join(os.path.dirname(os.path.abspath(__file__)), "..", "crates", "vectors")
    scripts = [((case, 1),) if isinstance(case, bytes) else case for case in cases()]
    with open(os.path.join(here, "stdin"), "w") as out:
        for pieces in scripts:
            out.write(" ".join(piece.hex() + (f"*{n}" if n != 1 else "") for piece, n in pieces) + "\n")
    with open(os.path.join(here, "stdout"), "w") as out:
        for case, pieces in enumerate(scripts):
            out.write(f"case {case}\n{answer(b''.join(piece * n for piece, n in pieces))}")
    print(f"{len(scripts)} cases")


if __name__ == "__main__":
    if len(sys.argv) > 1:
        sys.stdout.write(answer(open(sys.argv[1], "rb").read()))
    else:
        main()
