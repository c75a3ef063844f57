"""A second reader of scripts, from docs/SCRIPTS.md, with no look at the proved code: the orders of a script."""
import reference
from reference import NUMERAL, Refused

# name: operand count (None: two or more), and the name of the code
OPERATORS = {
    "bvnot": (1, "BvNot"), "bvneg": (1, "BvNeg"), "bvadd": (2, "BvAdd"), "bvsub": (2, "BvSub"), "bvmul": (2, "BvMul"),
    "bvudiv": (2, "BvUdiv"), "bvurem": (2, "BvUrem"), "concat": (2, "Concat"), "bvand": (2, "BvAnd"), "bvor": (2, "BvOr"),
    "bvxor": (2, "BvXor"), "bvlshr": (2, "BvLshr"), "bvshl": (2, "BvShl"), "bvult": (2, "BvUlt"), "bvule": (2, "BvUle"),
    "bvugt": (2, "BvUgt"), "bvuge": (2, "BvUge"), "bvslt": (2, "BvSlt"), "bvsle": (2, "BvSle"), "bvsgt": (2, "BvSgt"),
    "bvsge": (2, "BvSge"), "=": (2, "Equal"), "not": (1, "Not"), "and": (None, "And"), "or": (None, "Or"), "ite": (3, "Ite"),
    "=>": (2, "Implies"),
}
RESERVED = set(OPERATORS) | set("extract set-logic declare-const declare-fun assert check-sat _ let true false".split())

DEPTH, ORDERS, NAMES = 64, 1024, 256


def is_numeral(text):
    return bool(NUMERAL.match(text)) and len(text) <= 10 and int(text) < 2**32


class Tokens(reference.Tokens):
    """The tokens of a script, one after another, with a look ahead; a numeral comes with its place."""

    def peek(self):
        was = self.at
        found = self.next()
        self.at = was
        return found

    def numeral(self):
        _, place = self.peek()
        return super().numeral(), place


class Reader:
    """The orders of a script: pairs of a place and an act."""

    def __init__(self, script, order_room=ORDERS, name_room=NAMES):
        self.tokens, self.orders, self.names, self.rows = Tokens(script), [], {}, 0
        self.order_room, self.name_room = order_room, name_room

    def order(self, place, act, told):
        if len(self.orders) == self.order_room:
            raise Refused(4, told, "text")
        self.orders.append((place, act))
        if act[0] != "require":
            self.rows += 1
        return self.rows - 1

    def script(self):
        self.tokens.want(b"(", b"set-logic", b"QF_BV", b")")
        while self.command():
            pass
        return self.orders

    def command(self):
        place = self.tokens.want(b"(")
        word, at = self.tokens.name()
        if word == b"check-sat":
            self.tokens.want(b")", None)
            return False
        if word == b"assert":
            row, _ = self.term(DEPTH)
            self.order(place, ("require", row), self.tokens.want(b")"))
        elif word in (b"declare-const", b"declare-fun"):
            self.declaration(place, word)
        else:
            raise Refused(1, at, "text")
        return True

    def declaration(self, place, word):
        name, at = self.tokens.name()
        if name.decode() in RESERVED or name in self.names:
            raise Refused(2, at, "text")
        if len(self.names) == self.name_room:
            raise Refused(4, at, "text")
        if word == b"declare-fun":
            self.tokens.want(b"(", b")")
        self.tokens.want(b"(", b"_", b"BitVec")
        width, _ = self.tokens.numeral()
        self.tokens.want(b")")
        self.names[name] = self.order(place, ("declare", width), self.tokens.want(b")"))

    def term(self, depth):
        """The row that a term stands for, and the place of its last token."""
        text, place = self.tokens.next()
        if text is None or text == b")" or text[:1].isdigit():
            raise Refused(1, place, "text")
        constant, opens = text[:1] == b"#", text == b"("
        if not constant and not opens and text not in (b"true", b"false") and text not in self.names:
            raise Refused(2, place, "text")
        if depth == 0:
            raise Refused(3, place, "text")
        if opens:
            return self.parenthesis(place, depth)
        if constant:
            width = (len(text) - 2) * (1 if text[1:2] == b"b" else 4)
            if len(self.orders) == self.order_room:
                raise Refused(4, place, "text")
            if width > 32:
                raise Refused(7, place, "text")
            return self.order(place, ("constant", width, int(text[2:], 2 if text[1:2] == b"b" else 16)), place), place
        if text in self.names:
            return self.names[text], place
        return self.order(place, ("truth", text == b"true"), place), place

    def parenthesis(self, place, depth):
        text, at = self.tokens.next()
        if text == b"(":
            self.tokens.want(b"_")
            word, at = self.tokens.name()
            if word != b"extract":
                raise Refused(2, at, "text")
            upper, lower = self.tokens.numeral()[0], self.tokens.numeral()[0]
            self.tokens.want(b")")
            return self.operands(place, depth, 1, ("Extract", upper, lower))
        if text is None or text == b")" or text[:1].isdigit() or text[:1] == b"#":
            raise Refused(1, at, "text")
        if text == b"_":
            return self.indexed(place)
        if text.decode() not in OPERATORS:
            raise Refused(2, at, "text")
        count, code = OPERATORS[text.decode()]
        return self.operands(place, depth, count, (code,))

    def indexed(self, place):
        word, at = self.tokens.name()
        if word[:2] != b"bv" or not is_numeral(word[2:]):
            raise Refused(1, at, "text")
        width, at = self.tokens.numeral()
        if not 1 <= width <= 32 or int(word[2:]) >= 2**width:
            raise Refused(7, at, "text")
        end = self.tokens.want(b")")
        return self.order(place, ("constant", width, int(word[2:])), end), end

    def operands(self, place, depth, count, op):
        rows, joined = [], None
        while self.tokens.peek()[0] != b")":
            row, last = self.term(depth - 1)
            rows.append(row)
            if count is None:
                joined = row if joined is None else self.order(place, ("apply", op, [joined, row]), last)
        _, end = self.tokens.next()
        if len(rows) < 2 if count is None else len(rows) != count:
            raise Refused(2, end, "text")
        if count is None:
            return joined, end
        return self.order(place, ("apply", op, rows), end), end
