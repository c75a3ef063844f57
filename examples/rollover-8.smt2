; A dot-row counter of 8 bits. The guard behind "the next row is row 0, and this is not the last row"
; can never be reached: unsat.
(set-logic QF_BV)
(declare-const row (_ BitVec 8))
(assert (= (bvadd row #x01) #x00))
(assert (not (= row #xff)))
(check-sat)
