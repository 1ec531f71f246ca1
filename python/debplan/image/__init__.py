"""A root from nothing, the files of its packages, and its lock file."""
