"""The parts of tests/run: checks that count, the prover's run, and what each of them costs."""
