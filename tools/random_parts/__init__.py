"""The parts of tools/random."""
