"""Says in words what a printf format does: the command fmtcanon-explain."""
