for $a in root(1)/child::n2 return count($a/child::n3)
