"""Text from elsewhere, such as names of files, in a form in which every character can be seen."""

# Bytes that are not UTF-8 are lone surrogates in names of files: this, and the byte.
BYTES = 0xDC00


def visible(text: str) -> str:
    """Returns a text in one line, in which each character that can't be seen is an escape."""
    return text if text.isprintable() else "".join(it if it.isprintable() else escape_of(it) for it in text)


def escape_of(character: str) -> str:
    byte = ord(character) - BYTES
    return f"\\x{byte:02x}" if 0x80 <= byte <= 0xFF else character.encode("unicode_escape").decode()
