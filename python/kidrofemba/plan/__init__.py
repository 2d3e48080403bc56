"""Train files and base files from rolling stocks and planned trains."""
