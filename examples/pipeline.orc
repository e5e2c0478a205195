-- A pipeline: each value goes through the stages by itself, and a value that a stage refuses goes no further.
-- The body stands in brackets, because a name that is followed by a bracket is always a call.
def positive(n) = (Lt(0, n) >yes> Ift(yes) >> n)

(3 | -1 | 5) >n> positive(n) >p> Price(p) >x> Add(x, 100)
