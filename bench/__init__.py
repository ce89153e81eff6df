"""Measurements of the built programs: no part of the gate, but for `bench/instructions`."""
