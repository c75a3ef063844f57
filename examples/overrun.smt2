; The guard against an overrun of the 8-bit line buffer can be reached: sat. The position is then 240 or more.
(set-logic QF_BV)
(declare-const position (_ BitVec 8))
(declare-const length (_ BitVec 8))
(assert (= length #x10))
(assert (bvult (bvadd position length) position))
(check-sat)
