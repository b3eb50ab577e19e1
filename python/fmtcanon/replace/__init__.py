"""Replaces one printf format by another in C source: the command fmtcanon-replace."""
