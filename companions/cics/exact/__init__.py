"""Instructions that the region hasn't, written so that registers, storage, condition code and interruption are those of the instruction."""
