"""The parts of tests/mutants: crates and their functions, mutants, the prover and its verdicts, and the record of what was refused."""
