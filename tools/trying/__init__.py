"""What checks have in common."""
