"""The trial of office-setup: a machine below a folder, and the parts of the trial."""
