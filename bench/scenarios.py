"""The scenarios of files, as dev/scenario_text.py reads them: scenarios/README.md has their format."""

import pathlib
import sys

sys.path.insert(0, str(pathlib.Path(__file__).resolve().parent.parent / "dev"))
from scenario_text import scenarios_of  # noqa: E402


def commands_in(paths, word):
    """The commands of the files behind which a word says something: each with its place and its scenario. A fault ends the
    program."""
    found = []
    for path in paths:
        for scenario in scenarios_of(pathlib.Path(path).read_text(encoding="utf-8")):
            for line, fault in scenario.faults:
                sys.exit(f"{path}:{line}: {fault}")
            found += [(f"{path}:{command.line}", scenario, command) for command in scenario.commands if command.said(word)]
    return found


def texts_of(scenario):
    """The texts of its files by their names."""
    return {name: text.decode() for name, text in scenario.files().items()}
