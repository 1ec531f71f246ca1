"""An archive: which of its packages can't be installed, and what changes that."""
