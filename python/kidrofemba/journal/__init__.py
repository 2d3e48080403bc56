"""Journals and the files that are served: reading, mending, rolling over, exporting."""
