"""What c/bindings writes, file by file."""
