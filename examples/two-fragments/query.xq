count(root(1)/following::node()), count(root(1)/child::n2/following::node()), root(1)/child::n2/following::node()
