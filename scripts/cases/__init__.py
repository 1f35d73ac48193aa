"""Runs the cases of tests/ over the built program."""
