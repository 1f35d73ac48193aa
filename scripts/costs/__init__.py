"""What proofs cost: functions of a checked crate, and the parts of a gate's run."""
