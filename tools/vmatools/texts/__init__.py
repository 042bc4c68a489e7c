"""What traces, lists of areas and calls of Linux say in words."""
