"""Readers of what a run writes: the report, output and records of nodes, contested bytes."""
