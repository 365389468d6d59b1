"""What the checks share: how they read the crates, the prover's answers and the edits."""
