; A tick counter of 32 bits, read twice. However it rolled over between, the later reading minus the earlier one,
; added to the earlier one, is the later one: unsat.
(set-logic QF_BV)
(declare-const earlier (_ BitVec 32))
(declare-const later (_ BitVec 32))
(assert (not (= (bvadd earlier (bvsub later earlier)) later)))
(check-sat)
