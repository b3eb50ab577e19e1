"""Says whether each printf format fits its call on every platform: the command fmtcanon-check."""
