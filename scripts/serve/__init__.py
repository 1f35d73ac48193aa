"""A language server for specifications, proof texts and proof sources, over the program mz."""
