"""Measurements of the built program, each beside a plain model."""
