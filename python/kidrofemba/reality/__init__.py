"""What stands between a path that the server sells and the train that runs it: classes of trains,
running times by simulation, and whether a sold path holds."""
