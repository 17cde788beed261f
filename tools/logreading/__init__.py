"""The parts of tools/logs."""
