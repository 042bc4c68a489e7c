"""Other programs: how they are started, asked and ended."""
