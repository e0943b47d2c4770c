"""The paths: the line for each request, and how its reply is shown."""
