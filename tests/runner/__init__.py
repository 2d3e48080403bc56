"""Parts of the conformance runner: texts, words, calls of the program, steps of scenarios."""
