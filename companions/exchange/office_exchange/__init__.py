"""A whole office in a documented form: written from a copy, and read back as the same office."""
