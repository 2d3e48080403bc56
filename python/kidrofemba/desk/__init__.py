"""The desk: paths are asked for, seen and bought in a browser or by HTTP, before the door."""
