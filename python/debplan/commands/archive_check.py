"""Which packages of an archive can't be installed, by `debplan installable`, with all processors and over time.

  archive-check run OPTIONS.. [NAME..] [--report DIR] [--scheduler ADDRESS [--hand-over] [--shards N]]
                              asks by a process for each processor, each of one shard, and prints what `debplan installable` prints
                              with these OPTIONS, with its exit status
  archive-check run OPTIONS.. [NAME..] --shard K/N --output FILE
                              asks about one shard, writes what is printed into FILE, and beside it over which inputs that is
  archive-check merge FILE..  prints the whole from the outputs of all shards, 1/N to N/N in this order
  archive-check compare OLD NEW [--refutations DIR] [--old-index FILE..] [--new-index FILE..] [-- OPTIONS..]
                              what two outputs say differently
  archive-check migrate --index FILE --from FILE --output FILE SOURCE.. [--check -- OPTIONS..]
                              writes the index that would be where the packages of these sources were those of another index, and
                              asks what can be installed then, and what would have to come along
  archive-check verify FOLDER -- OPTIONS..
                              has a report judged again
  archive-check pages REPORT.. --output DIR [--title TEXT]
                              writes pages on what is broken by the last of these reports of `run`, and since when

OPTIONS are those of `debplan installable`, but --shard; of these --all-versions, --without-essential, --limit and NAMEs count for nothing
where a refutation is judged, whose request has them. Each process reads all files, so none can be a pipe. run and migrate take
--processors P, how many processes run at once; without it that is the number of processors. Refutations are judged by one more.

run: the output of a process that is killed, or whose output is cut short, isn't taken: standard error says which shard it was, and it
is run again once. What the program refuses it says once. On a terminal a line on standard error says how many shards are done.
  With --report, DIR, which has to be empty or not there, gets a folder NAME_VERSION for each broken package, and one `base` where
the base is broken: `request` and `refutation`, this with a line for each index; `sentences`, what check-refutation explains of them;
`relations`, a line for each relation at which the package fails, its kind, text and package separated by tabs: the premises that
nothing meets, or without these the conflicts; `stanza.txt`, the package as the first index has it; and `indices`, a line for each index
with its SHA256, Suite, Codename and File, separated by tabs, `-` for what it doesn't have. Beside the folders stand `indices` too,
`when`, the date of the run, and last, where all that is whole, `survey`, what was printed.
  With --scheduler the shards are tasks of a scheduler of Dask (as tcp://HOST:8786), four for each thread of its workers, or N. Each
worker has the program, the folder in which this tool is called, and all inputs at the same paths; where an input is another file there,
by its SHA256, that is said and nothing printed. Files of refutations come back from the worker. Workers and scheduler are trusted: what
they say is broken is printed as they say it, and Dask has each run what the others send. Where a worker dies, that is said too,
and another one takes its shards. A worker ends what it has begun even where the run is stopped. Needs Debian's python3-distributed of
one release, here and there, and none of these tools there. A scheduler tls://HOST:8786 is reached by --tls-ca FILE, a certificate
authority, --tls-cert FILE, a certificate, and --tls-key FILE, its key, in PEM, or else as Dask's configuration says.
  With --hand-over a worker needs neither the program nor the inputs: it is handed them, each once, by the SHA256 of what is in it, and
keeps them for a day after their last use in a folder `debplan` of its own, below its --local-directory. This goes away with the worker;
that of a worker that was killed is removed by the next task on that machine. The program, which may not be a script of more than one
file, runs there in this folder, and in the sources file that it reads each index has its sum for its path.
  With --shard and --output nothing is printed. FILE.inputs has lines with values separated by tabs: `shard K/N`; `option` and `name` for
each other option and NAME; for each file that was read its option, or `index N`, its SHA256 and its path; and `output`, the SHA256 of
FILE. That of the sources file is of its text with the sum of each index for its path, so it is the same where paths differ alone.
merge: the files have to be all shards of one list: each whole, all of one word on the base, and with as many packages as the shard has,
so that some list has its broken packages in this order. More can't be seen in them, so each FILE with FILE.inputs beside it has to be
what that is about, and the shard of its place, asked with what the first of these was asked with. The program isn't compared.
compare prints `newly broken NAME VERSION`, `newly undecided NAME VERSION` and `mended NAME VERSION`, and `still broken N` of how many are
broken in both. A package that OLD doesn't name may not have been there, and one that NEW doesn't name may not be there any more: by
--old-index it is `came broken` where none of these files has it, and by --new-index `gone`. With --refutations, the folder of those of
NEW, the sentences on why it is so stand below each package that is newly broken, judged with the OPTIONS of NEW; below the base alone,
where that is newly broken.
migrate: the stanzas whose Source (or Package, where there is none) is a SOURCE are taken out of the index, and those of the other index
put in. With --check the packages that can have changed are asked about, before with the sources file of OPTIONS, and after with the
new index in the place of the old one, and what differs is printed as by compare. These are the packages whose names need an exchanged
one, or what it provides, by any number of steps of Depends and Pre-Depends: more than those that have changed. What only conflicts
with an exchanged package can be installed without it, and is none of them. Where an essential name is among them, or one that the
status file holds, it is all packages; and where then the base is newly broken, it is the base alone, since nothing can be installed
beside it.
  Below a package that is newly broken, or came broken, `needs SOURCE VERSION, ..` has the sources of the other index of which a plan for
it takes packages, where that index stands behind the new one with the least priority and all versions are admitted: of a plan for this
version, or else for another one of the package. Without this line there is no such plan. Of packages that fail at the same relations one
is asked about, and below the others stands what was said of it, `asked of NAME VERSION, which fails there too: needs SOURCE VERSION, ..`,
or `nothing helps`. Then these sources are exchanged too, and it is asked again, until nothing more would have to come along: `with SOURCE
..:` stands above what is newly broken with them, but for what was told to fail at the same relations. A package that nothing helped isn't
asked about again. Of many groups those of most packages are asked about first, 200 at a time; once one of them needs more than what is
exchanged, the others are left for the next round, and below them stands `isn't asked about before what helps others is exchanged`. The last
line is `would have to come along: SOURCE..`. It is what the plans take, and perhaps not the least. It is asked ten times at most, and no
more once these are more than 300 sources, since they bring most of the other suite with them; a line of standard error says so.
  Where more than 1000 packages are so, each group is told, that of most first: `newly broken, N packages: NAME VERSION, ..`, and below
it the relations and what was asked of one. A package that is alone has its line.
verify: FOLDER is one of the folders of a report, or all of it. Each refutation has to be one over the indices that OPTIONS name, and is
judged by check-refutation with these; where an index is another one, that is said.
pages: DIR/index.html has the broken packages by the names at which they fail, and a plot of how many there were; each has a page with
its sentences, its Maintainer and the files of the report. `since` is the day of the first report from which on a package of this name
was in each report. DIR is replaced whole, where it has nothing but pages. Needs Debian's python3-jinja2 and python3-matplotlib.

Environment: DEBPLAN, the program.
Exit status: of run that of `debplan installable`, 5 where a shard fails twice, no worker is left or a report can't be written; of the
others 0; 1 where a file isn't what it should be, a package is newly broken or a refutation isn't accepted; 2 where none is newly broken
but one newly undecided; what the program refuses has its status, 3 to 5; 64 for wrong words, 69 where a program, a package of Debian, the
scheduler or any worker of it is missing."""
import os
import pathlib
import re
import signal
import sys

from debplan import disk, tool
from debplan.archive import cluster, differences, exchange, migration, pages, reports, shards, surveys
from debplan.archive.asking import Asking, refutations_of
from debplan.archive.words import CERTIFICATES, HAND_OVER, number_in, parser, words_of
from debplan.machine.inputs import program_path
from debplan.tool import Failure

OWN = ("--processors", "--report", "--scheduler", "--shards", "--shard", "--output", *CERTIFICATES)
# A shard of so many.
SHARD = re.compile(r"([1-9][0-9]{0,3})/([1-9][0-9]{0,3})")


def read(command, words):
    """The options of a command, and what stands behind the first `--`, as the words of a call of `debplan installable`."""
    at = words.index("--") if "--" in words else len(words)
    found = words_of(command).read(words[:at], mixed=True)
    found.processors, found.asking = number_in("--processors", {"--processors": found.processors}), Asking(words[at + 1:])
    if found.asking.names or found.asking.has("--shard"):
        raise Failure(f"{command}: behind -- stand OPTIONS, without NAMEs and --shard", 64)
    return found


# Asking


def run(words):
    """Asks in shards, and prints the whole; or asks about one shard."""
    if "--help" in words:
        words_of("run").read(["--help"])
    asking = Asking(words, OWN)
    own = {**asking.own, **{HAND_OVER: None for name, _ in asking.options if name == HAND_OVER}}
    asking.options = [option for option in asking.options if option[0] != HAND_OVER]
    if "--shard" in own or "--output" in own:
        return run_shard(asking, own)
    count, report = number_in("--processors", own), own.get("--report")
    if report and os.path.exists(report) and os.listdir(report):
        raise Failure(f"{report}: isn't empty")
    when = reports.now()
    with refutations_of(asking, report) as folder:
        survey = survey_by(asking, own, count, folder)
        put(survey.text())
        if report:
            reports.write_report(asking, survey, when, folder, pathlib.Path(report))
    return survey.status()


def survey_by(asking, own, count, folder):
    """The survey of the whole: by processes here, or by the workers of a scheduler."""
    words, address = asking.without_refutations().words(), own.get("--scheduler")
    if address is None:
        check_alone(own)
        return shards.asked(words, count, folder)
    many, parcel = number_in("--shards", own, None), None
    if HAND_OVER in own:
        inputs = shards.Inputs(asking)
        words, parcel = inputs.words(), cluster.Parcel(program_path(), inputs)
    with cluster.connected(address, asking.inputs(), parcel, certificates_in(own)) as workers:
        return shards.asked(words, many or workers.count(), folder, workers)


def check_alone(own):
    """Ends where an option is there that counts for nothing without a scheduler."""
    for name in ("--shards", HAND_OVER, *CERTIFICATES):
        if name in own:
            more = "; the shards of this machine are --processors" if name == "--shards" else ""
            raise Failure(f"run: {name} is about the workers of a --scheduler{more}", 64)


def certificates_in(own):
    """The files by which the scheduler is reached; none where Dask's configuration says how."""
    files = [own[name] for name in CERTIFICATES if name in own]
    if files and len(files) < len(CERTIFICATES):
        raise Failure(f"run: {', '.join(CERTIFICATES)} belong together", 64)
    for path in files:
        if not os.access(path, os.R_OK):
            raise Failure(f"{path}: can't be read", 64)
    return files


def run_shard(asking, own):
    """Asks about one shard, and writes what is printed and, beside it, over which inputs that is."""
    shard, output = own.get("--shard"), own.get("--output")
    found = SHARD.fullmatch(shard or "")
    if len(own) != 2 or not shard or not output:
        raise Failure("run: --shard K/N and --output FILE belong together, and to no other option of this tool", 64)
    if not found or int(found.group(1)) > int(found.group(2)):
        raise Failure(f"run: --shard {shard}: that is no shard, as 2/4 is one", 64)
    if any(os.path.exists(path) and os.path.exists(output) and os.path.samefile(path, output) for path in asking.inputs()):
        raise Failure(f"{output}: is read, so it can't be the output", 64)
    inputs = shards.Inputs(asking)
    survey = shards.asked_one(asking.without_refutations().words(), *map(int, found.groups()), asking.value("--refutations"))
    inputs.check_same()
    try:
        disk.write_text(output, survey.text())
        disk.write_text(output + surveys.INPUTS, surveys.inputs_text(inputs.lines(), shard, survey.text()))
    except OSError as error:
        raise Failure(f"{output}: the output can't be written: {error.strerror}", shards.LAST) from None
    return survey.status()


def put(text):
    """Prints what the program would print; where that can't be done, the status is that of the program."""
    try:
        print(text, end="", flush=True)
    except OSError as error:
        raise Failure(f"the output can't be written: {error.strerror}", shards.LAST) from None


def merge(words):
    """Merges the outputs of all shards."""
    options = read("merge", words)
    found = [surveys.survey_in(path) for path in options.files]
    bare = surveys.check_inputs(options.files)
    text = surveys.merged(found, options.files).text()
    if bare and len(bare) < len(options.files):
        migration.note(f"{bare[0]}: there is no {bare[0]}{surveys.INPUTS}, so nothing says over which inputs it is")
    print(text, end="")
    return 0


# Comparing


def compare(words):
    """Compares two outputs."""
    options = read("compare", words)
    if options.refutations:
        options.asking.needed("--arch"), options.asking.needed("--sources")
    old, new = surveys.survey_in(options.old), surveys.survey_in(options.new)
    difference = surveys.compared(old, new, pairs_in(options.old_index), pairs_in(options.new_index))
    reasons = reasons_of(difference, options) if options.refutations else {}
    return differences.tell(difference, lambda line: reasons.get(line, ()))


def reasons_of(difference, options):
    """The sentences on each line that is explained."""
    with reports.Judge(options.asking) as judge:
        return {line: judge.reasons_of(options.refutations, line) for line in differences.explained(difference)}


def pairs_in(paths):
    """The packages of these indices; None where no index is named."""
    return {exchange.pair_of(it.fields) for path in paths for it in exchange.stanzas_in(path)} if paths else None


# Exchanging


def migrate(words):
    """Writes the index that would be, and has asked what changes by it."""
    options = read("migrate", words_of_migrate(words))
    if any(os.path.exists(options.output) and os.path.samefile(path, options.output) for path in (options.index, options.other)):
        raise Failure(f"{options.output}: is read, so it can't be the output", 64)
    changed = exchange.Exchange(options.index, options.other, options.sources)
    check = migration.Check(options, changed, options.output) if options.check or options.asking.options else None
    disk.write_text(options.output, changed.text().decode("utf-8", "surrogateescape"))
    print(f"{options.output}: {len(changed.out)} taken out, {len(changed.put)} put in", flush=True)
    for left, new in changed.beside():
        migration.note(f"{new['Package']} {new['Version']} stands beside {left['Version']} of the source {exchange.source_of(left)}")
    return migration.tell(check) if check else 0


def words_of_migrate(words):
    """The words, with a `--check` that stands behind `--` in front of it."""
    at = words.index("--") if "--" in words else len(words)
    return [*words[:at], "--check", "--", *words[at + 2:]] if words[at + 1:at + 2] == ["--check"] else words


# Verifying


def verify(words):
    """Has the refutations of a report judged again."""
    options = read("verify", words)
    options.asking.needed("--arch")
    folders = reports.folders_in(options.folder)
    indices = reports.indices_of(options.asking.needed("--sources"))
    are_good = True
    with reports.Judge(options.asking) as judge:
        for folder in folders:
            said = reports.verified(judge, folder, indices, options.asking.value("--sources"))
            print("".join(f"{folder}: {line}\n" for line in said), end="", flush=True)
            are_good &= said == ["yes"]
    return 0 if are_good else 1


# Pages


def write_pages(words):
    """Writes pages on what is broken, of the reports of some runs."""
    found = words_of("pages").read(words, mixed=True)
    pages.write(found.output, found.runs, found.title)
    return 0


COMMANDS = {"run": run, "merge": merge, "compare": compare, "migrate": migrate, "verify": verify, "pages": write_pages}


def main(words):
    for stream in (sys.stdout, sys.stderr):
        stream.reconfigure(encoding="utf-8", errors="surrogateescape")
    signal.signal(signal.SIGTERM, lambda *_: sys.exit(143))
    if not words or words[0] not in COMMANDS:
        parser().read(words[:1])
    try:
        return COMMANDS[words[0]](words[1:])
    except shards.Refused as refused:
        print(refused, end="", file=sys.stderr)
        return refused.status


def start():
    """Runs the command."""
    tool.ends(main)
