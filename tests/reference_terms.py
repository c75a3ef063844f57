#!/usr/bin/env python3
"""Scripts with terms, which `blast` does not take yet, and the refusals of some, worked out by hand.

    python3 tests/reference_terms.py          holds tests/translator.py, the second translator, to those refusals

The table JUDGED has scripts with the place that is told marked. These scripts join the cases of tests/reference.py when
`blast` takes asserts, and what is expected then comes from the second translator.
"""
import random

from scripts import Maker, damaged
from translator import answer

FRONT = "(set-logic QF_BV)(declare-const x (_ BitVec 4))(declare-fun y () (_ BitVec 8))"
BACK = "(check-sat)"
DEEP = "(not " * 63

# Number and layer of a refusal, and the script between FRONT and BACK with `@` before the byte that is told.
JUDGED = [
    # text off the grammar, in every place of a term
    ("1 text", "(assert @)"),
    ("1 text", "(assert @5)"),
    ("1 text", "(assert @#b2)"),
    ("1 text", "(assert @#)"),
    ("1 text", "(assert (@))"),
    ("1 text", "(assert (@5 x))"),
    ("1 text", "(assert (@#b1 x))"),
    ("1 text", "(assert ((@x)))"),
    ("1 text", "(assert ((_ @5) x))"),
    ("1 text", "(assert ((_ extract @x 0) x))"),
    ("1 text", "(assert ((_ extract 1 @x) x))"),
    ("1 text", "(assert ((_ extract 1 @) x))"),
    ("1 text", "(assert ((_ extract 1 0 @0) x))"),
    ("1 text", "(assert (_ @x 4))"),
    ("1 text", "(assert (_ @bv 4))"),
    ("1 text", "(assert (_ @bv01 4))"),
    ("1 text", "(assert (_ @bv4294967296 4))"),
    ("1 text", "(assert (_ @5 4))"),
    ("1 text", "(assert (_ bv5 @x))"),
    ("1 text", "(assert (_ bv5 @))"),
    ("1 text", "(assert (_ bv5 4 @4))"),
    ("1 text", "(assert true @true)"),
    ("1 text", "(assert true@\x7f)"),
    ("1 text", "(assert (= x @007))"),
    ("1 text", "(@asserts true)"),
    ("1 text", "(assert true)@)"),
    ("1 text", "(assert (not @5))"),
    ("1 text", "(@bvadd x x)"),
    # names unknown, also as operators; operand counts
    ("2 text", "(assert @q)"),
    ("2 text", "(assert @_)"),
    ("2 text", "(assert @bvadd)"),
    ("2 text", "(assert @assert)"),
    ("2 text", "(assert @truee)"),
    ("2 text", "(assert @|x|)"),
    ("2 text", "(assert (@q x))"),
    ("2 text", "(assert (@x))"),
    ("2 text", "(assert (@true))"),
    ("2 text", "(assert (@let ((z x)) z))"),
    ("2 text", "(assert (@assert x))"),
    ("2 text", "(assert (@extract 1 0 x))"),
    ("2 text", "(assert (@bvad x x))"),
    ("2 text", "(assert (@bvaddd x x))"),
    ("2 text", "(assert (@BVADD x x))"),
    ("2 text", "(assert ((_ @rotate_left 1) x))"),
    ("2 text", "(assert ((_ @bvadd 1 0) x))"),
    ("2 text", "(assert (= x @z))(declare-const z (_ BitVec 4))"),
    ("2 text", "(assert (not@))"),
    ("2 text", "(assert (bvnot x x@))"),
    ("2 text", "(assert (bvadd x@))"),
    ("2 text", "(assert (bvadd x x x@))"),
    ("2 text", "(assert (ite true x@))"),
    ("2 text", "(assert (ite true x x x@))"),
    ("2 text", "(assert (and@))"),
    ("2 text", "(assert (and true@))"),
    ("2 text", "(assert (or false@))"),
    ("2 text", "(assert (=> true true true@))"),
    ("2 text", "(assert (= x x x@))"),
    ("2 text", "(assert ((_ extract 1 0)@))"),
    ("2 text", "(assert ((_ extract 1 0) x x@))"),
    ("2 text", "(assert (bvadd x x x @q))"),
    ("2 text", "(declare-const @x (_ BitVec 4))"),
    ("2 text", "(assert true)(declare-const @ite (_ BitVec 4))"),
    # depth
    ("3 text", f"(assert {DEEP}(not @true){')' * 64}"),
    ("3 text", f"(assert {DEEP}(not @x){')' * 64}"),
    ("3 text", f"(assert {DEEP}(not @#b1){')' * 64}"),
    ("3 text", f"(assert {DEEP}(not @#b{'1' * 33}){')' * 64}"),
    ("3 text", f"(assert {DEEP}(not @(not true)){')' * 64}"),
    ("3 text", f"(assert {DEEP}(not @(q)){')' * 64}"),
    ("2 text", f"(assert {DEEP}(not @q){')' * 64}"),
    ("1 text", f"(assert {DEEP}(not @5){')' * 64}"),
    ("2 text", f"(assert {DEEP}(not@){')' * 64}"),
    # constants
    ("7 text", f"(assert (= x @#b{'0' * 33}))"),
    ("7 text", "(assert (= x @#x000000000))"),
    ("7 text", "(assert (= x (_ bv0 @0)))"),
    ("7 text", "(assert (= x (_ bv0 @33)))"),
    ("7 text", "(assert (= x (_ bv16 @4)))"),
    ("7 text", "(assert (= x (_ bv2 @1)))"),
    ("7 text", "(assert (= x (_ bv4294967295 @31)))"),
    # orders that the workbook refuses, told at their first token
    ("6 order", "@(assert x)"),
    ("6 order", "(assert @(not x))"),
    ("6 order", "(assert @(not (bvadd x x)))"),
    ("6 order", "(assert (= @(bvadd x y) x))"),
    ("6 order", "(assert @(= x y))"),
    ("6 order", "(assert @(= x true))"),
    ("6 order", "(assert (= x @(ite x x x)))"),
    ("6 order", "(assert (= x @(ite true x y)))"),
    ("6 order", "(assert @(and x true))"),
    ("6 order", "(assert @(and true true x))"),
    ("6 order", "(assert @(bvult true x))"),
    ("6 order", "(assert @(=> true x))"),
    ("6 order", "(assert (= x @(concat x true)))"),
    ("6 order", "(assert (= x @((_ extract 0 0) true)))"),
    ("6 order", "(assert (= x @(bvnot true)))"),
    ("7 order", "(assert (= x @((_ extract 4 0) x)))"),
    ("7 order", "(assert (= x @((_ extract 0 1) x)))"),
    ("7 order", "(assert (= x @((_ extract 4294967295 0) x)))"),
    ("7 order", "(assert (= x @(concat (concat y y) (concat y (concat y x)))))"),
    ("7 order", "@(declare-const z (_ BitVec 0))(assert (= x z))"),
    ("7 order", "@(declare-const z (_ BitVec 33))"),
    # tables that are full: 2,048 target rows, of which FRONT takes 12 and each of these asserts 98 + 1; 1,024 orders, of
    # which FRONT takes 2 and each of these asserts 2
    ("9 workbook", "(assert (= y (bvand y y)))" * 20 + "(assert (= y @(bvand y y)))"),
    ("4 text", "(assert true)" * 511 + "(assert x@)"),
    ("4 text", "(assert true)" * 511 + "(assert @true)"),
    ("4 text", "(assert true)" * 511 + "(assert @#b1)"),
    ("4 text", "(assert true)" * 511 + f"(assert @#b{'1' * 33})"),
    ("4 text", "(assert true)" * 511 + "(assert (_ bv1 4@))"),
    ("4 text", "(assert true)" * 511 + "(assert (bvnot x@))"),
    ("4 text", "(assert true)" * 511 + "(assert (and x @x))"),
    ("4 text", "(assert true)" * 510 + "(assert x)(assert (or x (not x@) x))"),
    ("4 text", "(assert true)" * 510 + "(assert x)(assert (or x x @x))"),
    ("4 text", "(assert true)" * 510 + "(assert x)(assert (or x x (_ bv0 4@)))"),
    ("4 text", "(assert true)" * 511 + "(declare-const z (_ BitVec 4)@)"),
    ("2 text", "(assert true)" * 511 + "(assert (bvnot x x@))"),
    ("7 text", "(assert true)" * 511 + "(assert (_ bv16 @4))"),
]


def judged():
    """The scripts of JUDGED, each with what has to be printed."""
    for told, script in JUDGED:
        whole = (FRONT + script + BACK).encode("latin1")
        number, layer = told.split()
        place = whole.index(b"@")
        yield whole[:place] + whole[place + 1 :], f"refused {number} at {place} in {layer}\n"


def terms():
    """Scripts with asserts: every form of a term, limits kept exactly, random ones."""
    every = (
        "(assert (= (bvadd x #b0101) (bvsub #xA (_ bv15 4))))(assert (and true (bvult x x) (not (bvsge y (concat x x)))))"
        "(assert (or false (=> (bvsle x x) (= true false)) (= ((_ extract 5 2) y) (ite (bvugt x x) x (bvmul x x)))))"
        "(assert (= (bvlshr y (bvshl y #x03)) (bvudiv y (bvurem y (bvneg (bvnot y))))))(assert (bvule x (bvxor x (bvor x (bvand x x)))))"
        "(assert (bvuge x x))(assert (bvslt y y))(assert (bvsgt y y))"
    )
    whole = (FRONT + every + BACK).encode()
    yield whole
    for n in range(len(FRONT), len(whole), 5):
        yield whole[:n]
    for text in (
        "(assert true)", "(assert false)", "(assert (not true))", f"(assert {DEEP}true{')' * 63})", f"(assert {DEEP}(= x x){')' * 64}",
        "(assert true)" * 511, "(assert (= x x))" * 511, f"(assert (and{' true' * 300}))", f"(assert (or{' (= x x)' * 200}))",
        f"(assert (= #b{'01' * 16} #xFfFfFfFf))", "(assert (= (_ bv0 1) #b0))", "(assert (= (_ bv4294967295 32) #xffffffff))",
        "(assert (= y (concat ((_ extract 7 7) y) ((_ extract 6 0) y))))", "(assert(=x x))", "(assert ; (\n true;)\r)",
        "(declare-const z (_ BitVec 1))(assert (= z #b1))(declare-const w (_ BitVec 32))(assert (= w (bvmul w w)))",
        "(assert (= y (bvand y y)))" * 20, "(assert (= (bvadd #xC8 #x37) #xFF))", "(assert (= (bvadd #xC8 #x38) #x00))",
    ):
        yield (FRONT + text + BACK).encode()
    for script, _ in judged():
        yield script
    chance = random.Random(2)
    for widest in (1, 4, 8, 32):
        for _ in range(15):
            script = Maker(chance, widest).script()
            yield script
            for _ in range(2):
                yield damaged(chance, script)


def main():
    told = list(judged())
    for script, refusal in told:
        if answer(script) != refusal:
            raise SystemExit(f"{script}: {answer(script)[:60]}, and not {refusal}")
    scripts = list(terms())
    for script in scripts:
        answer(script)
    print(f"{len(told)} refusals as worked out by hand, {len(scripts)} scripts answered")


if __name__ == "__main__":
    main()
