"""Makes pages from the sources: one a crate, and that of the headline."""
