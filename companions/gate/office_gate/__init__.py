"""The parts of office-gate, which decides who may ask an office for what, and of office-journal."""
