"""Lets pytest, where it is run in the place of tests/run, import from this folder."""
