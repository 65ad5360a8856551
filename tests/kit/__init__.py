"""What trials share: judgements, commands, ports and served offices."""
