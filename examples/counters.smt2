; Three counters of a label printer.
(set-logic QF_BV)
(declare-const dot_row (_ BitVec 8))
(declare-fun feed_step () (_ BitVec 16))
(declare-const ticks (_ BitVec 32))
(check-sat)
