-- Fork and join: both parts are fetched side by side, and their sum waits for both.
val left = Fetch(1)
val right = Fetch(2)
Add(left, right)
