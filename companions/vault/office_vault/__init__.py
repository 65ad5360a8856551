"""The vault: files of any size beside an office, each kept as long as a record that still has its content names it."""
