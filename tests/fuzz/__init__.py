"""The parts of tests/fuzz/run."""
