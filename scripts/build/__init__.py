"""Proves and builds a program of the repository, and keeps it by the checksum of its sources."""
