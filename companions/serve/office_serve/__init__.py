"""The parts of office-serve, which stands between the clients of an office and the program `office serve`."""
