"""The package as pip installs it: in a fresh environment, from a copy of its source."""
import importlib.util
import os
import pathlib
import re
import shutil
import subprocess
import sys
import tempfile
import unittest

import debplan

PYTHON = pathlib.Path(__file__).resolve().parent.parent
TOP = PYTHON.parent
NEEDED = ("ensurepip", "setuptools", "wheel")
MISSING = [name for name in NEEDED if importlib.util.find_spec(name) is None]
IGNORED = shutil.ignore_patterns("tests", "__pycache__", "build", "*.egg-info")
COMMANDS = re.findall(r"^(debplan-[a-z-]+) =", (PYTHON / "pyproject.toml").read_text("utf-8"), re.M)


class Installed(unittest.TestCase):
    """What `pip install ./python` leaves."""

    def said_by(self, *words: object) -> str:
        env = {name: value for name, value in os.environ.items() if name != "PYTHONPATH"}
        run = subprocess.run(
            [str(word) for word in words],
            cwd=self.room,
            env={**env, "PIP_DISABLE_PIP_VERSION_CHECK": "1"},
            stdout=subprocess.PIPE,
            stderr=subprocess.STDOUT,
            encoding="utf-8",
            check=False,
        )
        self.assertEqual(run.returncode, 0, run.stdout)
        return run.stdout

    def setUp(self) -> None:
        room = tempfile.TemporaryDirectory(prefix="debplan-installed-")
        self.addCleanup(room.cleanup)
        self.room = pathlib.Path(room.name)

    @unittest.skipIf(MISSING, f"a fresh environment, for {', '.join(MISSING)} isn't there")
    def test_a_fresh_environment_has_the_package_and_its_commands(self) -> None:
        shutil.copytree(PYTHON, self.room / "python", ignore=IGNORED)
        self.said_by(sys.executable, "-m", "venv", "--system-site-packages", "new")
        how = ("--no-index", "--no-build-isolation", "--no-deps", "--quiet")
        self.said_by("new/bin/python3", "-m", "pip", "install", *how, "./python")
        shutil.rmtree(self.room / "python")
        where = self.said_by("new/bin/python3", "-c", "import debplan; print(debplan.__file__)")
        folder = pathlib.Path(where.strip()).parent
        self.assertIn(self.room.resolve() / "new", folder.resolve().parents)
        for name in ("py.typed", "archive/templates/package.html"):
            self.assertTrue((folder / name).is_file(), name)
        version = "import importlib.metadata as it; print(it.version('debplan'))"
        self.assertEqual(self.said_by("new/bin/python3", "-c", version).strip(), debplan.__version__)
        for command in COMMANDS:
            with self.subTest(command):
                said = self.said_by(f"new/bin/{command}", "--help")
                self.assertIn(command.partition("-")[2], said)

    def test_the_version_is_that_of_the_program(self) -> None:
        source = (TOP / "crates/command_line/src/help.rt").read_text(encoding="utf-8")
        self.assertIn(f'const VERSION: &str = "{debplan.__version__}";', source)
