; A feed counter of 16 bits that rolls over. Adding 16 steps makes it smaller only in its last 16 steps: unsat.
(set-logic QF_BV)
(declare-const feed (_ BitVec 16))
(assert (bvult (bvadd feed #x0010) feed))
(assert (bvult feed (bvsub #x0000 #x0010)))
(check-sat)
