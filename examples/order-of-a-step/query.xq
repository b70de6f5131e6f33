(root(1)/descendant::n4, root(1)/descendant::n3)/parent::node()
