"""The parts of a window: which ephemerides touch which, and how each is screened and checked. docs/SCALE.md says what holds."""
