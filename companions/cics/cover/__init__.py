"""What scripts run of programs, and what they never do: by the looks COVER and COVERED of `cicslook`."""
