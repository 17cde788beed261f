"""The parts of tools/suite."""
