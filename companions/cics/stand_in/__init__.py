"""Stand-ins for what the region leaves out: maps, files and the rest, in what it takes, each told as one."""
