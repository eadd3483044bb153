"""The parts of tools/where, and what tools/ported shares with it: the tokens of a file."""
