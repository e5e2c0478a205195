-- A checkout that may charge twice: whoever answers first pays, and where PayA takes 10 units both are asked.
-- One code: 200 shipped, 402 not paid, 404 no stock, 503 not shipped and refunded.
def price(item) =
  val p = Pricing(item) | Rwait(20) >> Cached(item)
  p

def pay(order, amount) =
  val got = PayA(order, amount) | Rwait(10) >> PayB(order, amount)
  got

def ship(order, left, pause) =
  Shipping(order) ; (Lt(1, left) >more> Ift(more) >> Rwait(pause) >>
    Sub(left, 1) >rest> Add(pause, pause) >longer> ship(order, rest, longer))

def checkout(order) =
  val p = price(order)
  val stock = Inventory(order)
  val paid = Ift(stock) >> pay(order, p)
  (paid >> (ship(order, 3, 1) >> 200 ; Refund(order) >> 503)) ; 402

checkout(7)
