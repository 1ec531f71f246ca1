"""A machine: its apt and dpkg, its status file, a folder of inputs made of it, and what a plan changes there."""
