"""The gateway between 3270 terminals and a region of the built program (docs/TERMINALS.md)."""
