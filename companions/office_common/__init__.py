"""The floor of the companions: each of them imports it, and it imports none of them."""
