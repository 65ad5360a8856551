"""The parts of the trial of `office gate`, with what they share."""
