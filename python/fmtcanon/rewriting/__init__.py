"""Writes other formats into sources, once the compiler has confirmed that nothing else changes."""
