"""Asks an office and its vault, for the tools that send."""
