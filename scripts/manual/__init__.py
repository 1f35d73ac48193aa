"""The commands of ./mz: what they take and do, for help, the man page, and whoever asks which arguments are right."""
from .commands import Command, Manual, read

__all__ = ["Command", "Manual", "read"]
