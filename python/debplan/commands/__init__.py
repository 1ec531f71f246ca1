"""The commands: a module for each, with a function `main`."""
