"""The parts of tools/recheck.py: terms, and the reading of files."""
