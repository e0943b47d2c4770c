"""What `jobhost worker` runs: it claims work items, and runs the executables that they name."""
