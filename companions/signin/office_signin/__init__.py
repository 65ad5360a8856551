"""Who signs in to the offices of a site: people by the city's directory, programs by tokens."""
