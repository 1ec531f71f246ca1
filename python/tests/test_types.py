"""The hints of types, by mypy, of the modules that its strict rules accept."""
import os
import pathlib
import shutil
import subprocess
import unittest

PYTHON = pathlib.Path(__file__).resolve().parent.parent
STRICT = ("answers", "process", "control", "disk", "tool")
NESTED = ("machine/database", "machine/system")


class Types(unittest.TestCase):
    """mypy --strict."""

    @unittest.skipIf(shutil.which("mypy") is None, "mypy is missing")
    def test_the_hints_are_whole(self) -> None:
        words = ["mypy", "--strict", "--follow-imports=silent", "--cache-dir", os.devnull]
        files = [f"debplan/{name}.py" for name in (*STRICT, *NESTED)]
        run = subprocess.run(
            [*words, *files], cwd=PYTHON, stdout=subprocess.PIPE, encoding="utf-8", check=False
        )
        self.assertEqual(run.returncode, 0, run.stdout)
