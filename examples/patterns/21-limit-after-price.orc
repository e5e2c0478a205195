-- A time limit whose clock starts when the price is there.
def pay(amount) = val x = Pay(amount) | Rwait(10) >> -1
                  x

Price() >price> pay(price)
