"""Wrong bodies: edits of functions that the prover has to refuse."""
