-- A checkout that charges once. One code: 200 shipped, 402 nobody took the money, 404 not in stock, 424 no price, 503 not shipped and
-- refunded, 500 not even refunded.

-- An answer, or false where it halts or isn't there after n units.
def within(n, answer) =
  val first = (answer ; false) | Rwait(n) >> false
  first

-- Three tries, with a pause that doubles.
def ship(order, left, pause) =
  Shipping(order) ; (Lt(1, left) >more> Ift(more) >> Rwait(pause) >>
    Sub(left, 1) >rest> Add(pause, pause) >longer> ship(order, rest, longer))

def deliver(order, tx) =
  (ship(order, 3, 1) >> 200) ; (Refund(tx) >> 503) ; 500

-- PayB is asked where PayA has no answer after 10 units. The call of PayA stays outside the race, so that its money goes back where it comes later.
def bill(order, amount) =
  val a = PayA(order, amount)
  val paid = within(10, a)
  (Eq(paid, false) >late> (
      Iff(late) >> deliver(order, paid)
    | Ift(late) >> ((PayB(order, amount) >tx> deliver(order, tx)) ; 402)
    | Ift(late) >> a >tx> Refund(tx) >> stop))

def checkout(order) =
  val stock = within(30, Inventory(order))
  val quoted = within(20, Pricing(order))
  (Eq(stock, true) >there> (
      Iff(there) >> 404
    | Ift(there) >> Eq(quoted, false) >none> (
          Iff(none) >> quoted >amount> bill(order, amount)
        | Ift(none) >> ((Cached(order) >amount> bill(order, amount)) ; 424))))

checkout(7)
