for $a in (1, 2) return ($a, for $b in (10, 20) return ($a, $b))
