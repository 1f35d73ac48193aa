"""Pages of a development: its specification, its statements and their proofs, for a browser that needs no server."""
