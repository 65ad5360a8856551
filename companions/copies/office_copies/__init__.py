"""What an office has since a copy of it was taken."""
