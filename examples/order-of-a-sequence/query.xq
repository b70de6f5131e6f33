for $a in root(1)/child::n2 return (data($a/child::n4/child::text()), data($a/child::n3/child::text()))
