-- A time limit that can be put round any answer: the value where none comes in time, or where it fails.
def within(n, answer, none) = val x = (answer ; none) | Rwait(n) >> none
                              x

val paid = within(10, Pay(7), -1)
paid
