"""Tests of the places that the program writes: `--refutations`, `--request-out`, `--output` and `--journal`. None of them is a file that is
read or a standard stream, whatever path or link leads there (docs/FORMATS.md, sections 13, 17 and 19). They ask the program that DEBPLAN
names or that the gate builds."""
import contextlib
import hashlib
import json
import os
import pathlib
import subprocess
import tempfile
import threading

from tests import small
from tests.rows import Rows

ASKING = ("--arch", "amd64", "--status", "status", "--sources", "sources")
STANZA = "Package: {}\nVersion: {}\nArchitecture: all\n{}\n"
NEEDS = "Depends: nowhere\n"
SOURCES = "File: packages\n"
# How long a call may take, in seconds.
SECONDS = 60
UNWRITTEN_FOLDER = (5, "", "debplan: refutations: E26 Write\n")


def stanzas(*packages):
    """An index of packages: of each the name, the version and further lines."""
    return "\n".join(STANZA.format(*package) for package in packages)


TEXTS = {"status": "", "sources": SOURCES, "packages": stanzas(("a", "1", NEEDS), ("b", "1", NEEDS), ("c", "1", "")), "request": "install c\n"}


@contextlib.contextmanager
def room(texts=None):
    """A folder with texts."""
    with tempfile.TemporaryDirectory() as name:
        path = pathlib.Path(name)
        small.write(path, {**TEXTS, **(texts or {})})
        yield path


def call(path, *words, **more):
    """The status of a call in a folder, and what it wrote on standard output and standard error, if they are no files of the test."""
    run = subprocess.run([str(small.BUILT), *words], cwd=path, stderr=subprocess.PIPE, timeout=SECONDS, encoding="utf-8", check=False,
                         **{"stdin": subprocess.DEVNULL, "stdout": subprocess.PIPE, **more})
    return run.returncode, run.stdout or "", run.stderr


def survey(path, *words, **more):
    return call(path, "installable", *ASKING, *words, **more)


def one_file(first, other):
    return 4, "", f"debplan: {first} and {other} are one file\n"


def why(what, found, wanted):
    """Why something isn't as it is wanted; None if it is."""
    return None if found == wanted else f"{what} is, and not {wanted!r}:\n{found!r}"


class Refutations(Rows):
    """The folder of refutations."""

    def setUp(self):
        if not small.HAS_PROGRAM:
            self.skipTest(small.WITHOUT_PROGRAM)

    def test_a_folder_that_cannot_be_written_is_refused_before_anything_is_read(self):
        def tried():
            for folder in ("", "nowhere", "packages", "/proc"):
                with room() as path:
                    (path / "status").unlink()
                    yield why(f"--refutations {folder!r}", survey(path, "--refutations", folder), UNWRITTEN_FOLDER)

        self.check(tried())

    def test_a_link_or_a_pipe_in_the_folder_is_replaced(self):
        def tried():
            with room({"r/keep": "kept", "secret": "secret"}) as path:
                (path / "r/a_1.request").symlink_to("../secret")
                os.mkfifo(path / "r/b_1.refutation")
                os.link(path / "secret", path / "r/b_1.request")
                yield why("the call", survey(path, "--refutations", "r"), (1, "broken a 1\nbroken b 1\nchecked 3, broken 2\n", ""))
                yield why("the file behind the links", (path / "secret").read_text(), "secret")
                yield why("the other file", (path / "r/keep").read_text(), "kept")
                for name in ("a_1.request", "b_1.request"):
                    yield why(f"{name} is a file", (path / "r" / name).is_symlink(), False)
                    yield why(name, (path / "r" / name).read_text(), f"install {name[0]} (= 1)\n")
                yield why("the pipe", (path / "r/b_1.refutation").is_file(), True)
                yield why("what is in the folder", sorted(os.listdir(path / "r")),
                          ["a_1.refutation", "a_1.request", "b_1.refutation", "b_1.request", "keep"])

        self.check(tried())

    def test_a_name_that_an_input_has_is_refused(self):
        def tried():
            with room({"r/s.request": ""}) as path:
                words = ("installable", "--arch", "amd64", "--sources", "sources", "--refutations", "r", "--status")
                yield why("the status file in the folder", call(path, *words, "r/s.request"), one_file("--refutations", "--status"))
                (path / "link.request").symlink_to("r/s.request")
                yield why("a link to it", call(path, *words, "link.request"), one_file("--refutations", "--status"))
                yield why("by another path", call(path, *words, "r/../r/s.request"), one_file("--refutations", "--status"))
                small.write(path, {"r/plain": ""})
                yield why("another name", call(path, *words, "r/plain")[0], 1)

        self.check(tried())

    def test_an_index_of_such_a_name_is_kept_and_told(self):
        def tried():
            texts = {"sources": "File: r/a_1.request\n", "r/a_1.request": TEXTS["packages"]}
            with room(texts) as path:
                yield why("the call", survey(path, "--refutations", "r"),
                          (5, "broken a 1\nbroken b 1\nchecked 3, broken 2, unwritten 1\n", "debplan: r/a_1.request: E26 Write\n"))
                yield why("the index", (path / "r/a_1.request").read_text(), TEXTS["packages"])
                yield why("another file", (path / "r/b_1.request").read_text(), "install b (= 1)\n")

        self.check(tried())

    def test_a_file_that_cannot_be_written_does_not_hide_the_survey(self):
        def tried():
            with room({"r/a_1.request/x": "", "r/b_1.refutation/x": ""}) as path:
                told = "debplan: r/a_1.request: E26 Write\ndebplan: r/b_1.refutation: E26 Write\n"
                yield why("the call", survey(path, "--refutations", "r"), (5, "broken a 1\nbroken b 1\nchecked 3, broken 2, unwritten 2\n", told))
                yield why("the others", (path / "r/a_1.refutation").is_file() and (path / "r/b_1.request").is_file(), True)
                status, printed, said = survey(path, "--refutations", "r", "--format", "json")
                yield why("the call for JSON", (status, said), (5, told))
                yield why("its counts", json.loads(printed.splitlines()[-1])["counts"], {"broken": 2, "checked": 3, "undecided": 0, "unwritten": 2})

        self.check(tried())

    def test_a_long_name_is_told_by_its_sum(self):
        def tried():
            version = "1" + "0" * 240
            with room({"packages": stanzas(("a", version, NEEDS), ("b", "1", NEEDS)), "r/x": ""}) as path:
                yield why("the call", survey(path, "--refutations", "r"), (1, f"broken a {version}\nbroken b 1\nchecked 2, broken 2\n", ""))
                name = "sha256-" + hashlib.sha256(f"a_{version}".encode()).hexdigest()
                yield why("its request", (path / f"r/{name}.request").read_text(), f"install a (= {version})\n")
                words = ("check-refutation", *ASKING, "--request", f"r/{name}.request", f"r/{name}.refutation")
                yield why("its refutation", call(path, *words), (0, "yes\n", ""))

        self.check(tried())

    def test_what_a_killed_run_has_left_is_removed(self):
        def tried():
            gone = subprocess.Popen(["true"])
            gone.wait()
            mine = f"b_1.request.debplan-{os.getpid()}"
            left = [f"a_1.request.debplan-{gone.pid}", f"a_1.refutation.debplan-{gone.pid}-7"]
            others = [mine, "x.debplan-", "y.debplan-7a"]
            with room({f"r/{name}": "" for name in [*left, *others]}) as path:
                survey(path, "--refutations", "r", "c")
                yield why("what is in the folder", sorted(os.listdir(path / "r")), sorted(others))

        self.check(tried())


class Outputs(Rows):
    """The output of a plan, its journal, and the request that is left."""

    def setUp(self):
        if not small.HAS_PROGRAM:
            self.skipTest(small.WITHOUT_PROGRAM)

    @contextlib.contextmanager
    def planned(self):
        """A folder with a plan."""
        with room() as path:
            solved = call(path, "solve", *ASKING, "--request", "request")
            self.assertEqual(solved[0], 0, solved)
            small.write(path, {"plan": solved[1]})
            yield path

    def test_no_request_is_put_over_a_file_that_is_read(self):
        words = ("solve", *ASKING, "--request", "request", "--keep-back", "--request-out")

        def tried():
            for option in ("status", "sources", "request"):
                with room() as path:
                    before = (path / option).read_text()
                    (path / "link").symlink_to(option)
                    os.link(path / option, path / "hard")
                    for name in (option, f"./{option}", "link", "hard"):
                        yield why(f"--request-out {name}", call(path, *words, name), one_file("--request-out", f"--{option}"))
                    yield why(option, (path / option).read_text(), before)
            with room({"pins": ""}) as path:
                yield why("the preferences", call(path, *words, "pins", "--preferences", "pins"), one_file("--request-out", "--preferences"))
            with room() as path:
                yield why("an index", call(path, *words, "packages"), (5, "", "debplan: request-out: E26 Write\n"))
                yield why("the index", (path / "packages").read_text(), TEXTS["packages"])
                yield why("another file", call(path, *words, "out")[0], 0)
                yield why("its text", (path / "out").read_text(), "install c\n")

        self.check(tried())

    def test_no_file_that_is_standard_output_is_replaced(self):
        def tried():
            for option in ("--output", "--journal"):
                with self.planned() as path, open(path / "log", "w+", encoding="utf-8") as log:
                    log.write("before\n")
                    log.flush()
                    others = {"--output": ("--journal", "journal"), "--journal": ("--output", "out")}[option]
                    words = ("apply", *ASKING, "--request", "request", option, "log", *others, "plan")
                    yield why(option, call(path, *words, stdout=log), one_file(option, "standard output"))
                    yield why("the file", (path / "log").read_text(), "before\n")
            with room() as path, open(path / "log", "w+", encoding="utf-8") as log:
                words = ("solve", *ASKING, "--request", "request", "--keep-back", "--request-out", "log")
                yield why("--request-out", call(path, *words, stdout=log), one_file("--request-out", "standard output"))
            with self.planned() as path, open(path / "log", "a+", encoding="utf-8") as log:
                words = ("apply", *ASKING, "--request", "request", "--journal", "journal", "--output", "/dev/stdout", "plan")
                yield why("named as the stream", call(path, *words, stdout=log)[0], 0)
                yield why("what is there", (path / "log").read_text().endswith("\napplied 2\n"), True)

        self.check(tried())

    def test_standard_input_is_a_file_that_is_read(self):
        def tried():
            for option, others in (("--output", ("--journal", "journal")), ("--journal", ("--output", "out"))):
                for name, asked in (("request", ("--request", "-", "plan")), ("plan", ("--request", "request", "-"))):
                    with self.planned() as path:
                        before = (path / name).read_text()
                        os.link(path / name, path / "hard")
                        for written in (name, "hard"):
                            with open(path / name, encoding="utf-8") as given:
                                found = call(path, "apply", *ASKING, option, written, *others, *asked, stdin=given)
                            yield why(f"{option} {written} <{name}", found, one_file(option, "standard input"))
                        yield why(name, (path / name).read_text(), before)

        self.check(tried())

    def test_what_a_killed_run_has_left_is_removed(self):
        def tried():
            gone = subprocess.Popen(["true"])
            gone.wait()
            with self.planned() as path:
                for name in (f"out.debplan-{gone.pid}", f"out.debplan-{os.getpid()}", f"other.debplan-{gone.pid}"):
                    small.write(path, {name: ""})
                words = ("apply", *ASKING, "--request", "request", "--journal", "journal", "--output", "out", "plan")
                yield why("the call", call(path, *words), (0, "applied 2\n", ""))
                yield why("what is beside", sorted(name for name in os.listdir(path) if ".debplan-" in name),
                          sorted([f"out.debplan-{os.getpid()}", f"other.debplan-{gone.pid}"]))

        self.check(tried())


class SecondReadings(Rows):
    """Indices that change while they are read."""

    def setUp(self):
        if not small.HAS_PROGRAM:
            self.skipTest(small.WITHOUT_PROGRAM)

    def changed(self, change):
        """The first step that is printed as JSON, if the index changes once it was read: the preferences come by a pipe, which is written then."""
        fields = "Filename: pool/c.deb\nSize: 1\nSHA256: {}\n"
        with room({"packages": stanzas(("c", "1", fields.format("a" * 64)))}) as path:
            os.mkfifo(path / "pins")

            def give():
                with open(path / "pins", "w", encoding="utf-8"):
                    change(path, stanzas(("c", "1", "Depends: b\n" + fields.format("b" * 64))))

            writer = threading.Thread(target=give)
            writer.start()
            status, printed, said = call(path, "solve", *ASKING, "--preferences", "pins", "--request", "request", "--format", "json")
            writer.join()
            self.assertEqual((status, said), (0, ""))
            step = json.loads(printed)["steps"][0]
            return step["filename"], step["sha256"]

    def test_the_archive_of_a_stanza_that_was_not_judged_is_not_told(self):
        def replaced(path, text):
            small.write(path, {"other": text})
            (path / "other").replace(path / "packages")

        def written(path, text):
            small.write(path, {"packages": text})

        def piped(path, _text):
            (path / "packages").unlink()
            os.mkfifo(path / "packages")

        def kept(_path, _text):
            pass

        self.check(why(change.__name__, self.changed(change), wanted) for change, wanted in
                   [(replaced, (None, None)), (written, (None, None)), (piped, (None, None)), (kept, ("pool/c.deb", "a" * 64))])
