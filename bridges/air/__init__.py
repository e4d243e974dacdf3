"""Ways in and out of a node that runs."""
