"""The parts of a window, each screened and checked by itself, as one report: docs/SCALE.md says what is joined and what is refused."""
