; One 4-bit register and no condition.
(set-logic QF_BV)
(declare-const x (_ BitVec 4))
(check-sat)
