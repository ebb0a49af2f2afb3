"""What the tools share. They stand beside this package, and need Python's standard library alone (3.8 or later)."""
