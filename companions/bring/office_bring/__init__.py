"""Makes sheets for office-convert of what another system exports, and names each part that has no place in an office."""
