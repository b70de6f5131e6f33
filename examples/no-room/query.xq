for $a in (1, 2, 3, 4, 5) return for $b in (1, 2, 3, 4, 5) return for $c in (1, 2, 3, 4, 5) return ($a, $b, $c)
