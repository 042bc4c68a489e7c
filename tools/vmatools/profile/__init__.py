"""The profile by its model: answers to a trace, generated loads, and the rows that a trace reaches."""
