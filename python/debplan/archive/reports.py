"""Refutations of broken packages: judged, explained, and put into folders that say over which indices they are. The options with which
they are judged are those of an `Asking` of tools/archive-check."""
import concurrent.futures
import dataclasses
import pathlib
import queue
import time
from collections import namedtuple

import debplan
from debplan import control, disk
from debplan.archive import exchange, failing, premises, surveys
from debplan.machine.inputs import ending, program_path, without_unmatched
from debplan.tool import Failure

# The files of the folder of a package: the first two are called so too behind the name and the version, as the program writes them. The
# stanza begins with what a stranger has written: by its name no browser takes it for a page.
FILES = ("request", "refutation", "sentences", "relations", "stanza.txt", "indices")
STANZA, INDICES = FILES[-2:]
# The files that stand beside these folders, the last of which is written last: where it is there, the report is whole.
SURVEY, WHEN = "survey", "when"
REFUSED = (3, 4, 5)
# What check-refutation says of a refutation, its sentences, and the relations at which the package fails.
Verdict = namedtuple("Verdict", "said sentences relations")
# An index: the SHA256 of its file, and its release keys and its path as the sources file has them, with `\n` for a newline in it.
Index = namedtuple("Index", "sum suite codename path")


def read(path):
    with open(path, encoding="utf-8", errors="surrogateescape", newline="") as file:
        return file.read()


# Judging


class Judge:
    """Has refutations judged, and requests solved, by one process over the inputs that the options of an Asking name. What that refuses
    ends the tool, with the place that it's about."""

    def __init__(self, asking):
        self.resolver = debplan.Resolver(program=program_path(), **asking.inputs_by_name())

    def __enter__(self):
        return self

    def __exit__(self, *_):
        self.resolver.close()

    def judged(self, request, refutation):
        """What is said of a refutation, of the files of its request and of itself."""
        with ending(f"{refutation}: "):
            verdict = self.resolver.check_refutation(read(request), read(refutation))
        sentences = without_unmatched(verdict.reasons)
        return Verdict(verdict.text.strip(), sentences, failing.relations_in({"lines": premises_of(verdict), "reasons": sentences}))

    def judged_of(self, folder, line):
        """The same of the refutation of a package, in a folder that `debplan installable` wrote it into."""
        request, refutation = (pathlib.Path(folder, f"{surveys.file_name(line)}.{kind}") for kind in FILES[:2])
        for path in (request, refutation):
            if not path.is_file():
                raise Failure(f"{path}: is missing, so nothing says why {surveys.written(line)} is broken")
        return self.judged(request, refutation)

    def reasons_of(self, folder, line):
        """Why a package is broken, in sentences; or why nothing says so."""
        try:
            verdict = self.judged_of(folder, line)
        except Failure as failure:
            if failure.status in REFUSED:
                raise
            return [str(failure)]
        return verdict.sentences if verdict.said == "yes" else [f"its refutation isn't accepted with these OPTIONS: {verdict.said}"]

    def solved(self, lines, place):
        """The answer to the request of these lines."""
        with ending(f"{place}: "):
            return self.resolver.solve(*lines)


class Judges:
    """So many judges over the same inputs, each of which answers one question at a time."""

    def __init__(self, asking, count):
        self.judges = [Judge(asking) for _ in range(count)]

    def __enter__(self):
        return self

    def __exit__(self, *_):
        for judge in self.judges:
            judge.__exit__()

    def asked(self, question, things):
        """What a question about each of these things, of a judge and of the thing, is answered; in their order."""
        # (that which was used last is used next: the others need not read their inputs where there are few questions)
        idle = queue.LifoQueue()
        for judge in self.judges:
            idle.put(judge)

        def ask(thing):
            judge = idle.get()
            try:
                return question(judge, thing)
            finally:
                idle.put(judge)

        with concurrent.futures.ThreadPoolExecutor(len(self.judges)) as pool:
            return list(pool.map(ask, things))


def premises_of(verdict):
    """The premises of a refutation, as a document has them."""
    lines = [it for it in verdict.lines if isinstance(it, debplan.Premise)]
    return [{"premise": it.kind, **{name: value for name, value in dataclasses.asdict(it).items() if value is not None}} for it in lines]


# The indices


def indices_of(sources):
    """The indices that a sources file names."""
    found = []
    for keys in control.indices_in(sources):
        names = [" ".join(keys.get(name, "").split()) or "-" for name in ("Suite", "Codename")]
        found.append(Index(disk.sha256_of(keys["File"]), *names, keys["File"].replace("\n", "\\n")))
    return found


def indices_in(path):
    """The indices of a folder of a report."""
    found = [line.split("\t", 3) for line in read(path).removesuffix("\n").split("\n")]
    for number, values in enumerate(found, 1):
        if len(values) != len(Index._fields):
            raise Failure(f"{path}: line {number} doesn't have the SHA256, the Suite, the Codename and the File of an index")
    return [Index(*values) for values in found]


def written(index):
    """An index of a report, by its names."""
    return " ".join(name for name in index[1:] if name != "-")


# A report


def now():
    """The date of a report."""
    return time.strftime("%Y-%m-%dT%H:%M:%SZ", time.gmtime())


def write_report(asking, survey, when, folder, report):
    """Writes a folder for each broken package, from the folder of all refutations, and the survey with its date beside them. What is
    told stays told where that can't be done."""
    broken = [line for line in survey.told() if line.state == "broken"]
    try:
        indices = indices_of(asking.needed("--sources"))
        texts = {INDICES: "".join("\t".join(index) + "\n" for index in indices)}
        stanzas = stanzas_of([keys["File"] for keys in control.indices_in(asking.needed("--sources"))], broken, asking.needed("--arch"))
        report.mkdir(parents=True, exist_ok=True)
        with Judge(asking) as judge:
            for line in broken:
                stanza = {STANZA: stanzas[surveys.key_of(line)]} if line.version else {}
                files = pathlib.Path(folder, surveys.file_name(line))
                refutation = with_indices(read(f"{files}.{FILES[1]}"), indices)
                write_folder(report / files.name, files, judge.judged_of(folder, line), {FILES[1]: refutation, **texts, **stanza})
        write_texts(report, {**texts, WHEN: f"{when}\n", SURVEY: survey.text()})
    except OSError as error:
        raise Failure(f"{report}: the report isn't whole: {error.filename}: {error.strerror}", REFUSED[-1]) from None
    except Failure as failure:
        raise Failure(f"{report}: the report isn't whole: {failure}", REFUSED[-1]) from None


def stanzas_of(paths, lines, arch):
    """The texts of the stanzas of these packages, by name and version key: of each the first one in the indices."""
    wanted, found = {surveys.key_of(line) for line in lines}, {}
    names = {line.name for line in lines}
    for path in paths:
        for it in exchange.stanzas_in(path, names):
            if exchange.pair_of(it.fields) in wanted and it.fields["Architecture"] in ("all", arch):
                found.setdefault(exchange.pair_of(it.fields), it.text.decode("utf-8", "surrogateescape") + "\n")
    missing = [line for line in lines if surveys.key_of(line) not in found and line.version]
    if missing:
        raise Failure(f"no index has {surveys.written(missing[0])}; has a file changed meanwhile?")
    return found


def with_indices(refutation, indices):
    """A refutation with lines for the indices that it is about (docs/FORMATS.md, section 10)."""
    head, _, lines = refutation.partition("\n")
    if head != premises.NAMED:
        return refutation
    return f"{head}\n" + "".join(f"index {index.sum} {index.path}\n" for index in indices) + lines


def write_folder(folder, files, verdict, more):
    """Writes the folder of a package from the file of its request, the verdict, and other texts."""
    if verdict.said != "yes":
        raise Failure(f"{files}.refutation: {verdict.said}")
    folder.mkdir()
    relations = "".join("\t".join(relation) + "\n" for relation in verdict.relations)
    write_texts(folder, {FILES[0]: read(f"{files}.{FILES[0]}"), "relations": relations,
                         "sentences": "".join(f"{it}\n" for it in verdict.sentences), **more})


def write_texts(folder, texts):
    for name, text in texts.items():
        disk.write_text(folder / name, text)


def folders_in(folder):
    """The folders of packages that a folder of a report is: itself, or those in it; none where nothing was broken."""
    found = [folder] if (folder / FILES[0]).is_file() else sorted(it.parent for it in folder.glob(f"*/{FILES[0]}"))
    if not found and not (folder / SURVEY).is_file() and any(folder.iterdir()):
        raise Failure(f"{folder}: has no {FILES[0]}, and no folder that has one")
    return found


def verified(judge, folder, indices, sources):
    """What is said of the refutation of a package: which indices are others than those that it is about, or the judge's word."""
    known = indices_in(folder / INDICES)
    if len(known) != len(indices):
        return [f"is about {len(known)} indices, and {sources} names {len(indices)}"]
    others = [f"index {number}, {new.path}, is another one than {written(old)}: its SHA256 is {new.sum} and not {old.sum}"
              for number, (old, new) in enumerate(zip(known, indices), 1) if old.sum != new.sum]
    if others:
        return others
    said = judge.judged(folder / FILES[0], folder / FILES[1]).said
    return [said] if said == "yes" else [f"{said}, and the indices are those of the report: another input or option may be another one"]
