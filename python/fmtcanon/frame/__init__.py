"""What all commands share: their command lines, findings, terminals, progress and processes."""
