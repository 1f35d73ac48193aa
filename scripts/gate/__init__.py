"""All that is tried before a change is handed in."""
