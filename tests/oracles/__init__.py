"""Plain models that judge the program in tests."""
