"""The command line: the words of `jobhost`, and what it prints."""
