"""Tests of the package debplan and of the commands that stand on it. `python3 python/tests` runs all of them."""
