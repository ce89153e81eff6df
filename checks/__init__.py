"""The checks: programs that see what the built programs do. `checks/check` starts each."""
