"""Renames what a Rattle repository names itself, by a map of old and new names."""
