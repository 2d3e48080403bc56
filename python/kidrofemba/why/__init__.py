"""Who stood in the way of an ask that was refused."""
