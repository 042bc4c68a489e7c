"""Beside a system: traces that are made, answers that are compared, findings that are made small and told."""
