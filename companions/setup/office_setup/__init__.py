"""Sets up whole offices on one machine, each from one file that says what the office is."""
