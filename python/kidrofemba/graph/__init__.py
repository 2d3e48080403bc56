"""Train graphs, as pictures and as pages."""
