"""Catalogues: reading, checking, comparing and drawing them, and making them of JSL."""
