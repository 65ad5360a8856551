"""The trial of office-sign-in: its parts, a directory, a provider, and what stands for nginx and the gate."""
