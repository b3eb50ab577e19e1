"""Message catalogs: their messages, and what is wrong with the formats of their translations."""
