"""Whether the arguments of calls fit their formats on every platform, and what to write where they don't."""
