for $a in root(1)/child::n2 return if ($a/child::n4) then data($a/child::n4/child::text()) else -1
