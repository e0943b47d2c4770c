"""The data on the disk: tables in PostgreSQL, or SQLite files beside a log."""
