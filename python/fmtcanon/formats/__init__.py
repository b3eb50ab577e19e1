"""What is said of a format: in words, of its rejection, and how it compares with another."""
