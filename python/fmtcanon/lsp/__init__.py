"""Says in an editor what formats do and what is wrong with them: the command fmtcanon-lsp."""
