let $a := 1 return (let $a := $a + 1 return $a, $a)
