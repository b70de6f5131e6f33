let $a := 1 idiv 0 return 2
