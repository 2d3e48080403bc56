"""Models of protocols that are small enough to be searched exhaustively."""
