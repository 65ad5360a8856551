"""Takes what a run sent out of an office, and reads the archive's list of it."""
