data(root(1)/descendant::n4/child::text()), data(root(1)/descendant::n3/child::text())
