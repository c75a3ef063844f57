; Signed comparison, shifts, division, parts and a choice: a pitch error of 8 bits is halved where it is not negative: sat.
(set-logic QF_BV)
(declare-fun pitch () (_ BitVec 8))
(assert (bvsge pitch (_ bv0 8)))
(assert (= (ite (bvslt pitch #x00) pitch (bvlshr pitch #x01)) (bvudiv pitch #x02)))
(assert (=> (= ((_ extract 0 0) pitch) #b1) (bvsgt pitch #x10)))
(assert (= (concat ((_ extract 7 4) pitch) ((_ extract 3 0) pitch)) pitch))
(check-sat)
