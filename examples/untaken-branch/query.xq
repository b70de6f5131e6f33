for $a in (0, 2, 5) return if ($a eq 0) then 0 else 100 idiv $a
