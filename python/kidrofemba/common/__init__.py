"""What all companions share: refusals, files written whole, clock times, progress."""
