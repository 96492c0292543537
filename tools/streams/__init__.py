"""Streams for tests, written without claxon's code."""
