"""The checks that need no program: a module for each kind of file."""
