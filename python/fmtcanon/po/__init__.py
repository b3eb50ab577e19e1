"""Checks the C formats of message catalogs: the command fmtcanon-po."""
