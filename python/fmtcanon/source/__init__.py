"""C source: its tokens, the places that may be formats, macros, and how a literal is spelled."""
