"""What tools/picture draws with: a module for each kind of picture, and those that they share."""
