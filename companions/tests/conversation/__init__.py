"""The tests of conversations: sessions by `cics-look`, as a new user would hold one, whose kept scripts are replayed by both programs with
the same bytes; what is completed; and one typed at a terminal."""
