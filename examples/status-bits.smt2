; Bitwise operators on a status register of 4 bits: the paper bit (1) and the heat bit (8) are set, and turning over the
; ready bit (2) gives 13: sat, with status 15.
(set-logic QF_BV)
(declare-const status (_ BitVec 4))
(assert (= (bvand status #b1001) #b1001))
(assert (= (bvxor status #b0010) #xd))
(assert (bvuge (bvor status #b0100) #xf))
(check-sat)
