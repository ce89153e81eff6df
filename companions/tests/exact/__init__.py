"""The tests of what `cics-adapt` writes for instructions that aren't accepted: registers, storage, condition code and interruption after it are those
that Hercules 3.13 had after the instruction itself. There are 50 kept cases of each (`companions/tests/exact/hercules.py` does as many as are
asked for again). What is written is as short as its page says, and what can't be exact is left and told."""
