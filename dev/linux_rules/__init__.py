"""Makes what is made of Linux's rules by version: statements of recorded traces, rows beside the profile, pages."""
