"""A service over `batchctl script`: it carries lines and replies, keeps them, and shows them."""
