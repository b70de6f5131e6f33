data(root(1)/descendant::n3/child::text()) + data(root(1)/descendant::n5/child::text())
