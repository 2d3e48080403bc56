"""The companions of the path server, by subject, and the one command that starts them."""
