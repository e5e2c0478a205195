-- A payment that is told after 10 units of time at the latest, and refunded when it comes later.
val paid = Pay(7)
val code = (paid ; -1) | Rwait(10) >> -1
code | Lt(code, 0) >late> Ift(late) >> paid >p> Refund(p) >> stop
