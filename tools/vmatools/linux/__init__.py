"""Linux's memory calls by version, function by function as in mm/. It is tested against kernels, and not proved."""
