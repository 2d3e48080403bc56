"""The door before a server, and a client of it."""
