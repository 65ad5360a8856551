"""The law beside each rule: libraries of rules, and the laws of an office. Nothing here decides anything."""
