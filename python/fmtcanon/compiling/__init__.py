"""How C files are compiled, and what libclang finds in their preprocessed text: shared by the commands that need it."""
