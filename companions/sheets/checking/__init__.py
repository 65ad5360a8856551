"""Reads lists of acts as the program reads them."""
