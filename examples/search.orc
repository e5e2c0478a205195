-- A search that is cancelled: the first hit wins. With --journal the two calls that lose are seen to be cancelled.
hit <hit< (Search(1) | Search(2) | Search(3))
