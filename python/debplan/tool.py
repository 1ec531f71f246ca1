"""How a tool ends, the words of its command line, and the programs that it calls."""
from __future__ import annotations

import argparse
import os
import subprocess
import sys
from typing import Callable, List, Mapping, NoReturn, Optional, Sequence


class Failure(Exception):
    """What ends a tool: the reason, and the exit status."""

    def __init__(self, why: object, status: int = 1) -> None:
        super().__init__(why)
        self.status = status


class Words(argparse.ArgumentParser):
    """The words of a command line. The head of the tool says above and below its options what it
    does; wrong words end with status 64."""

    def __init__(self, head: str, prog: Optional[str] = None) -> None:
        about, _, more = head.strip().partition("\n\n")
        super().__init__(
            prog=prog or tool_name(),
            description=about,
            epilog=more,
            allow_abbrev=False,
            add_help=False,
            formatter_class=argparse.RawDescriptionHelpFormatter,
        )
        self.add_argument("--help", action="help", help="print this")

    def read(self, words: List[str], mixed: bool = False) -> argparse.Namespace:
        """The words as options and values; where they may be mixed, options stand between the
        values too."""
        return self.parse_intermixed_args(words) if mixed else self.parse_args(words)

    def error(self, message: str) -> NoReturn:
        print(f"{self.prog}: {message}\n{self.format_usage()}", end="", file=sys.stderr)
        sys.exit(64)


def tool_name() -> str:
    return os.path.basename(sys.argv[0])


def ends(main: Callable[[List[str]], int]) -> NoReturn:
    """Runs a tool on the words of its command line, and ends with its exit status."""
    try:
        status = main(sys.argv[1:])
    except Failure as failure:
        print(f"{tool_name()}: {failure}", file=sys.stderr)
        status = failure.status
    except OSError as error:
        print(f"{tool_name()}: {error.filename or 'writing'}: {error.strerror}", file=sys.stderr)
        status = 1
    except KeyboardInterrupt:
        print(f"{tool_name()}: stopped", file=sys.stderr)
        status = 130
    sys.exit(status)


def last_words(run: "subprocess.CompletedProcess[str]") -> str:
    """What a program that failed said last, without what it says of its progress."""
    lines = [line for line in (run.stderr or run.stdout or "").splitlines() if line.strip()]
    told = [line for line in lines if line.startswith(("E: ", "W: "))]
    return "\n".join(told or lines[-5:]) or f"exit status {run.returncode}"


def run_of(
    words: Sequence[str], limit: Optional[int] = None, env: Optional[Mapping[str, str]] = None
) -> subprocess.CompletedProcess[str]:
    """Runs a program in the C locale, without input, and returns what it printed. With a limit it
    has so many seconds."""
    try:
        return subprocess.run(
            words,
            env={**os.environ, "LC_ALL": "C", **(env or {})},
            stdout=subprocess.PIPE,
            stderr=subprocess.PIPE,
            stdin=subprocess.DEVNULL,
            encoding="utf-8",
            errors="surrogateescape",
            timeout=limit,
            check=False,
        )
    except FileNotFoundError:
        raise Failure(
            f"{words[0]} is missing: this works on a machine with apt and dpkg", 69
        ) from None
    except subprocess.TimeoutExpired:
        raise Failure(f"{words[0]} was stopped after {limit} seconds without an answer") from None


def said_by(
    words: Sequence[str], limit: Optional[int] = None, env: Optional[Mapping[str, str]] = None
) -> str:
    """What a program prints; where it fails, the tool ends with its last words."""
    run = run_of(words, limit, env)
    if run.returncode:
        raise Failure(f"{os.path.basename(words[0])}: {last_words(run)}")
    return run.stdout
