"""How the program is asked: by a process of `debplan batch` that answers many questions, or by a
call for each."""
from __future__ import annotations

import contextlib
import functools
import json
import os
import pathlib
import re
import select
import selectors
import shutil
import subprocess
import tempfile
import threading
import weakref
from dataclasses import dataclass
from typing import IO, Generator, Iterable, Iterator, List, Optional, Tuple, Union

from debplan.answers import Document, Error, Failed, Path, Refused, read_by

_REFUSED = re.compile(r"(.+): (E\d+) ([A-Z]\w*)(?: (.*))?")
_REFUSAL = re.compile(f"debplan: {_REFUSED.pattern}")
_TOP = pathlib.Path(__file__).resolve().parent.parent.parent
# How many bytes a question to `debplan batch` may have (docs/FORMATS.md, section 20), of which some
# are left for its newline.
QUESTION_BYTES = 67_108_864 - 16
# How long a process that broke off has to end by itself, in seconds.
_SECONDS_TO_END = 5


@dataclass(frozen=True)
class Question:
    """A question to the program: the command that answers it, the text of the request and of what
    is judged, if there are any, names, the limit of the search, and the names of options without a
    value."""

    command: str
    request: Optional[str] = None
    judged: Optional[str] = None
    names: Tuple[str, ...] = ()
    limit: Optional[int] = None
    flags: Tuple[str, ...] = ()


class Calls:
    """Questions that are asked by a call of the program for each, which reads its inputs anew."""

    def __init__(self, program: str, folder: Optional[str], inputs: Tuple[str, ...]) -> None:
        self._program, self._folder, self._inputs = program, folder, inputs

    def documents(self, question: Question) -> Generator[Document, None, None]:
        """The documents that answer a question, as they are written. Raises Refused and Failed."""
        with contextlib.ExitStack() as stack:
            words = [self._program, question.command, "--format=json", "--explain", *self._inputs]
            words += [f"--limit={question.limit}"] if question.limit is not None else []
            words += [*(f"--{flag}" for flag in question.flags)]
            words += ["--request=-"] if question.request is not None else []
            judged = (
                [stack.enter_context(_file_with(question.judged)).name]
                if question.judged is not None
                else []
            )
            words += ["--", *judged, *question.names] if judged or question.names else []
            given, said = stack.enter_context(
                _file_with(question.request or "")
            ), stack.enter_context(tempfile.TemporaryFile())
            run = started(words, self._folder, given, said)
            stack.callback(end_of_process, run)
            is_whole = False
            for document in map(_read, run.stdout or ()):
                is_whole = document is not None
                if document is None:
                    break
                yield document
            status = _status_of(run)
            if status not in (0, 1, 2) or not is_whole:
                raise error_of(self._program, status, _text_from(said, 0))

    def document(self, question: Question) -> Document:
        """The one document that answers a question."""
        *others, document = self.documents(question)
        if others:
            raise Failed("debplan gave more than one answer")
        return document

    def sentences(self, question: Question, refusal: str) -> Tuple[str, ...]:
        """What is said of a refusal of this question, where it is refused so."""
        try:
            self.document(question)
        except Refused as refused:
            return refused.reasons if str(refused) == refusal else ()
        except Failed:
            pass
        return ()


class Process:
    """A process of `debplan batch`, which answers each line that is written to it by a line."""

    def __init__(self, program: str, folder: Optional[str], inputs: Tuple[str, ...]) -> None:
        self._program, self._said, self._before = program, tempfile.TemporaryFile(), 0
        self._run = started([program, "batch", *inputs], folder, subprocess.PIPE, self._said)
        # Where nobody closes it, it ends when it is forgotten, or with this process.
        self.end = weakref.finalize(self, end_of_process, self._run)

    def has_ended(self) -> bool:
        """Whether it answers no more."""
        return self._run.poll() is not None

    def reply(self, line: bytes) -> bytes:
        """What it writes in answer to a line: a line, or the beginning of one where it breaks off.
        It is read while the question is written, so that neither waits for the other."""
        given, told, left, found = self._run.stdin, self._run.stdout, line, bytearray()
        assert given and told
        self._before = os.fstat(self._said.fileno()).st_size
        with selectors.DefaultSelector() as ready:
            ready.register(given, selectors.EVENT_WRITE)
            ready.register(told, selectors.EVENT_READ)
            while left or not found.endswith(b"\n"):
                for key, _ in ready.select():
                    if key.fileobj is given:
                        left = _left_of(left, given)
                        if not left:
                            ready.unregister(given)
                        continue
                    part = os.read(told.fileno(), 65_536)
                    found += part
                    if not part:
                        return bytes(found)
        return bytes(found)

    def error(self) -> Error:
        """Why it broke off: a refusal, or that it failed, with what it said since the question, or
        else at last."""
        status = _status_of(self._run, _SECONDS_TO_END)
        said = _text_from(self._said, self._before)
        return error_of(
            self._program,
            status,
            said if said.strip() else "".join(_text_from(self._said, 0).splitlines()[-1:]),
        )


class Batch:
    """Questions that are asked of one process, which is started for the first of them, and again
    where it has ended. Threads wait for each other."""

    def __init__(
        self, program: Optional[Path], folder: Optional[Path], inputs: Iterable[str]
    ) -> None:
        self._how = (
            path_of_program(program),
            None if folder is None else os.path.abspath(folder),
            tuple(inputs),
        )
        self.calls, self._lock, self._asked = Calls(*self._how), threading.Lock(), 0
        self._process: Optional[Process] = None

    def document(self, question: Question) -> Document:
        """The document that answers a question. Raises Refused and Failed."""
        line = _line_with(question)
        if line is None:
            return self.calls.document(question)
        with self._lock:
            try:
                reply = self._reply_to(line)
            except Refused as refused:
                raise self._explained(refused, question) from None
        if "refused" in reply:
            raise self._explained(self._refusal_in(reply), question)
        return reply

    def packages(self, question: Question) -> Generator[Document, None, None]:
        """The documents that answer a question about packages, the last of which has the counts.
        Raises Refused and Failed."""
        reply = self.document(question)
        yield from read_by(_packages_in, reply)
        yield {**reply, "text": reply["text"][reply["text"][:-1].rfind("\n") + 1 :]}

    def _reply_to(self, line: bytes) -> Document:
        """The reply to a question, which gets a number. Where there is none the process is ended,
        also where this is interrupted: what it would still say belongs to no other question."""
        process = self._process
        if process is None or process.has_ended():
            self.close()
            process = self._process = Process(*self._how)
        self._asked += 1
        try:
            reply = _read(process.reply(b'{"id":%d,%s\n' % (self._asked, line[1:])))
            is_no_question = reply is not None and reply.get("id", 0) is None and "refused" in reply
            if reply is None or not is_no_question and reply.get("id") != self._asked:
                raise process.error()
        except BaseException:
            self.close()
            raise
        return reply

    def _refusal_in(self, reply: Document) -> Error:
        """What a reply without an answer raises."""
        refusal = (
            _REFUSED.fullmatch(reply["refused"]) if isinstance(reply["refused"], str) else None
        )
        if reply["id"] is None or not refusal:
            return Failed(f"{self._how[0]} refuses the question: {reply['refused']}")
        file, code, word, place = refusal.groups()
        return Refused(file, code, word, place or "")

    def _explained(self, error: Error, question: Question) -> Error:
        """An error, of which the sentences are asked for when they are wanted."""
        if not isinstance(error, Refused):
            return error
        return Refused(
            error.file,
            error.code,
            error.word,
            error.place,
            functools.partial(self.calls.sentences, question, str(error)),
        )

    def close(self) -> None:
        """Ends the process."""
        if self._process is not None:
            self._process.end()
        self._process = None


def _packages_in(document: Document) -> List[Document]:
    """The objects of packages in a document."""
    return list(document["packages"])


def _line_with(question: Question) -> Optional[bytes]:
    """A question as a line of `debplan batch` has it, but for its number; None where no line can
    have it, for its length or since a text isn't UTF-8."""
    members: Document = {"ask": question.command}
    if question.request is not None:
        members["goals"] = [question.request[:-1]] if question.request else []
    if question.judged is not None:
        members[question.command.partition("-")[2]] = question.judged
    if question.names:
        members["names"] = question.names
    if question.limit is not None:
        members["limit"] = question.limit
    members.update({flag.replace("-", "_"): True for flag in question.flags})
    try:
        line = json.dumps(members, ensure_ascii=False, separators=(",", ":")).encode("utf-8")
    except UnicodeEncodeError:
        return None
    return line if len(line) + 32 <= QUESTION_BYTES else None


def _left_of(line: bytes, given: IO[bytes]) -> bytes:
    """What is left of a line where as much is written of it as there is room for; nothing where
    nobody reads it any more."""
    try:
        return line[os.write(given.fileno(), line[: select.PIPE_BUF]) :]
    except BrokenPipeError:
        return b""


@contextlib.contextmanager
def _file_with(text: str) -> Iterator[IO[bytes]]:
    """A temporary file with a text, at its beginning."""
    with tempfile.NamedTemporaryFile(prefix="debplan-") as file:
        file.write(text.encode("utf-8", "surrogateescape"))
        file.seek(0)
        yield file


def started(
    words: List[str], folder: Optional[str], given: Union[int, IO[bytes]], said: IO[bytes]
) -> "subprocess.Popen[bytes]":
    """A process of the program, whose standard output is read, and whose standard error is written
    into a file."""
    try:
        return subprocess.Popen(
            words,
            cwd=folder,
            stdin=given,
            stdout=subprocess.PIPE,
            stderr=said,
            bufsize=0 if given == subprocess.PIPE else -1,
        )
    except OSError as error:
        raise Failed(f"{error.filename or words[0]}: {error.strerror}") from None


def _status_of(run: "subprocess.Popen[bytes]", seconds: Optional[float] = None) -> int:
    """The exit status of a process, to which no more is written and of which no more is read. With
    a number of seconds it is ended behind these."""
    for pipe in (run.stdin, run.stdout):
        if pipe:
            pipe.close()
    try:
        return run.wait(seconds)
    except subprocess.TimeoutExpired:
        run.kill()
        return run.wait()


def end_of_process(run: "subprocess.Popen[bytes]") -> None:
    """Ends a process, also one whose answer nobody waits for."""
    if run.poll() is None:
        run.kill()
    _status_of(run)


def _text_from(file: IO[bytes], start: int) -> str:
    """The text of a file from a byte on. The place at which a process writes it stays."""
    return os.pread(file.fileno(), os.fstat(file.fileno()).st_size, start).decode(
        "utf-8", "replace"
    )


def _read(line: bytes) -> Optional[Document]:
    """The document of a line, or None where it isn't whole."""
    try:
        document = json.loads(line)
    except ValueError:
        return None
    return document if isinstance(document, dict) and line.endswith(b"\n") else None


def error_of(program: str, status: int, said: str) -> Error:
    """What a call that ended without its answer raises: the refusal on its standard error, or that
    it failed."""
    lines = said.splitlines()
    for number, line in enumerate(lines):
        refusal = _REFUSAL.fullmatch(line)
        if refusal:
            file, code, word, place = refusal.groups()
            return Refused(file, code, word, place or "", lines[number + 1 :])
    first = next((line for line in lines if line.strip()), "no answer")
    return Failed(f"{program} ended with the status {status}: {first}", status)


def of_repository() -> Optional[str]:
    """The path of the program of the repository that this package is in, if it is in one."""
    here = _TOP / "debplan"
    return str(here) if (_TOP / "crates.txt").is_file() and here.is_file() else None


def path_of_program(named: Optional[Path]) -> str:
    """The path of the program."""
    wanted = os.environ.get("DEBPLAN") or of_repository() or "debplan"
    wanted = wanted if named is None else os.fspath(named)
    found = shutil.which(wanted)
    if not found:
        raise Failed(f"there is no program {wanted}: name it in DEBPLAN")
    return os.path.abspath(found)


def compare(version: str, relation: str, other: str, program: Optional[Path] = None) -> bool:
    """Whether a version compares so to another one (deb-version(7)). `relation` is `lt`, `le`,
    `eq`, `ne`, `ge` or `gt`.

        debplan.compare("1.0~rc1", "lt", "1.0")         # True

    Raises Refused where one is no version (`version 1: E6 BadVersion ..`), and Failed."""
    path = path_of_program(program)
    try:
        run = subprocess.run(
            [path, "compare", "--", version, relation, other],
            stdin=subprocess.DEVNULL,
            capture_output=True,
            check=False,
        )
    except OSError as error:
        raise Failed(f"{path}: {error.strerror}") from None
    if (run.returncode, run.stdout) not in ((0, b"yes\n"), (1, b"no\n")):
        raise error_of(path, run.returncode, run.stderr.decode("utf-8", "replace"))
    return run.returncode == 0
