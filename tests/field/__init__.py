"""Makes the figures of real catalogs and sources."""
