; Registers of unequal widths cannot be added: `refused 6 at 219 in order`, the place of the addition.
(set-logic QF_BV)
(declare-const narrow (_ BitVec 8))
(declare-const wide (_ BitVec 16))
(assert (= wide
           (bvadd narrow wide)))
(check-sat)
