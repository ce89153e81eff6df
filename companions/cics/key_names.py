"""The keys of a terminal, as scripts name them."""
AIDS = ("ENTER", "CLEAR", "PA1", "PA2", *(f"PF{number}" for number in range(1, 13)))
