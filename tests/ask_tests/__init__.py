"""The sections of `tests/asks`."""
