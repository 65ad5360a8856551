"""The lists of an office that are made of a copy of it: what waits for somebody."""
