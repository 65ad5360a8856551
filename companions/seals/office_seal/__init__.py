"""Certificates of an office, kept beside it, signed once each in one chain, and stamped by an authority."""
