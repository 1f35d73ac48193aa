"""Finds locals that hold a map and are dropped at an exit, where `drop(..)` would do it at less cost."""
