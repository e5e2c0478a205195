-- A recursive fan-out: two to the fourth leaves, each of which publishes 1.
def fan(n) = Lt(0, n) >more> (Iff(more) >> 1 | Ift(more) >> Sub(n, 1) >m> (fan(m) | fan(m)))

fan(4)
