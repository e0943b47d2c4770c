"""One history in one co-process: the order of its lines, and what is known of it."""
