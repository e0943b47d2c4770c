"""Who has the history: an instance by itself, or one of several over PostgreSQL."""
