"""What all stages know: the tree, types, objects and places, what is refused, and what is written."""
