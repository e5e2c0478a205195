-- Parallel or: true as soon as one side says so, whatever the other does; false where both say so.
def either(a, b) = Ift(a) >> true | Ift(b) >> true | Iff(a) >> Iff(b) >> false

val result =
  val a = Left()
  val b = Right()
  either(a, b)
result
