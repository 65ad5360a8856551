"""The trial of the vault: a model of its own, random offices, and what is killed, damaged, filled up or forged."""
