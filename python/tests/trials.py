"""Calls of tools/archive-check in a folder of texts, beside what they are to print and to leave, as its self-test makes them."""
import os
import pathlib
import subprocess
import sys

TOOL = pathlib.Path(__file__).resolve().parent.parent.parent / "tools" / "archive-check"
# The options that ask about the texts of archive_tests, and what is said of them.
ASKING = "--arch amd64 --sources sources"
WHOLE = "broken other 1\nbroken tool-data 1:1\nchecked 6, broken 2\n"


def is_as(wanted, text):
    """Whether a text is the wanted one, in which .. stands for anything."""
    first, *others = wanted.split("..")
    if not text.startswith(first):
        return False
    at = len(first)
    for part in others:
        at = text.find(part, at)
        if at < 0:
            return False
        at += len(part)
    return at == len(text) or wanted.endswith("..")


def fails(room, call, options=("-S",)):
    """Why a call isn't as it is wanted; nothing where it is. With other options of Python more modules than its own are found."""
    words, status, printed, said = call
    first, *rest = words.split()
    name = first.partition("=")[2] if first.startswith("PROGRAM=") else None
    if (room / "once").exists():
        (room / "once").rmdir()
    run = subprocess.run([sys.executable, *options, str(TOOL), *(rest if name else [first, *rest])], cwd=room, stdin=subprocess.DEVNULL,
                         capture_output=True, encoding="utf-8", env={**os.environ, "DEBPLAN": str(room / (name or "debplan"))}, check=False)
    found = (run.returncode, run.stdout, run.stderr.removeprefix("archive-check: "))
    if run.returncode == status and is_as(printed, run.stdout) and is_as(said, found[2]):
        return None
    return f"`{words}` ends so, and not {(status, printed, said)}:\n{found}"


def differs(room, name, wanted):
    """Why a file isn't as it is wanted; nothing where it is."""
    text = (room / name).read_text(encoding="utf-8") if (room / name).is_file() else None
    return None if text is not None and is_as(wanted, text) else f"{name} is to be\n{wanted}and is\n{text}"
