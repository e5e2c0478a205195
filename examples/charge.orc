-- Whoever answers first pays: PayA, or PayB, which is asked after 8 units.
val paid = PayA(7) | Rwait(8) >> PayB(7)
paid
