"""What `jobhost serve` runs."""
