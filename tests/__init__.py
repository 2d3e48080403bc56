"""Tests of the built program, of the companions and of the pages."""
