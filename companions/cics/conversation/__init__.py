"""A conversation with `cicslook`: lines that are typed, of which the good ones are done by one child."""
