"""Proving and building the program: its crates, how far the gate is, and about how long the rest takes."""
