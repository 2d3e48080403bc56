"""The network of a server as plain models: its tables, routes, places and blocking times."""
