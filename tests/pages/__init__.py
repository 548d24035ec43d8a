"""What `tests/documents` stands on: pages, the commands in them, the tools that these want, and names of files."""
