"""The tests of terminals: sessions by `cicslook`, each of which is replayed by `cicsedf`. There are set-ups, and sources without one."""
