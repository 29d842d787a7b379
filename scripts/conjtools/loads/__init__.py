"""Hostile loads: folders within the limits that take far more time or memory than their size suggests, if a program is not careful."""
