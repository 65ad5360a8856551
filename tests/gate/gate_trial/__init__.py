"""The parts of the trial of office-gate."""
