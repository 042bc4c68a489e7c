"""Pictures of runs and of tables."""
