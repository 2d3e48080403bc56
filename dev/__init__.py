"""What those run who change the server: builds, checks, tables of cases, measurements."""
