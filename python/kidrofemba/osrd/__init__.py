"""Networks from exports of OSRD."""
