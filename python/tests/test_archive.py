"""The self-test of tools/archive-check, over small texts: by a program that stands for debplan, and by the one that DEBPLAN names or
that the gate builds, where it is there. What is wanted is counted by hand."""
import hashlib
import itertools
import os
import pathlib
import sys
import tempfile
import unittest

from debplan.archive import surveys
from debplan.tool import Failure
from tests import archive_cluster, archive_migration, archive_pages
from tests.rows import Rows
from tests.trials import ASKING, TOOL, WHOLE, differs, fails

BUILT = pathlib.Path(os.environ.get("DEBPLAN") or TOOL.parent.parent / "crates" / "debplan" / "out" / "debplan").resolve()
# A package is broken here where a name that it depends on is in no index, or is that of a broken package.
PROGRAM = """#!{python} -S
import sys
sys.path.insert(0, {package!r})
import json
from debplan import control
from debplan.archive import exchange, surveys
words = sys.argv[2:]
for word in [it for it in words if it.startswith("--") and "=" in it]:
    words[words.index(word):words.index(word) + 1] = word.split("=", 1)
def value(name, default=None):
    return words[words.index(name) + 1] if name in words else default
def failing(it):
    for number, clause in enumerate(control.clauses_in(it, "Depends"), 1):
        if not any(control.matches(other, atom) for other in good for atom in clause):
            others = [other for other in stanzas if any(control.matches(other, atom) for atom in clause)]
            return [(it, number), *(failing(others[0]) if others else ())]
def refutation_of(it):
    lines = ["goal 1", *(f"depends {{it['Package']}} {{it['Version']}} {{number}}" for it, number in failing(it))]
    lines.append(f"derive : {{' '.join(str(number) for number in range(1, len(lines) + 1))}}")
    return "".join(f"{{line}}\\n" for line in ["refutation 2", *lines, f"end {{len(lines)}}"])
def premise_of(line):
    name, version, number = line.split()[1:]
    fields = [it for it in stanzas if (it["Package"], it["Version"]) == (name, version)][0]
    pair, text = {{"number": 1, "name": name, "version": version}}, control.written(control.clauses_in(fields, "Depends")[int(number) - 1])
    return {{"line": 1, "premise": "depends", "pair": pair, "text": text}}
def sentence_on(premise):
    pair, text = premise["pair"], premise["text"]
    found = [it for it in stanzas if any(control.matches(it, atom) for clause in control.clauses_of(text) for atom in clause)]
    end = f" (that is {{found[0]['Package']}} {{found[0]['Version']}})." if found else ", but it isn't there."
    return f"{{pair['name']}} {{pair['version']}} depends on {{text}}{{end}}"
def checked(text):
    try:
        premises = [premise_of(line) for line in text.splitlines() if line.startswith("depends ")]
    except IndexError:
        premises = []
    if not premises:
        return dict(answer="no", text="no line 1\\n", reasons=[], lines=[])
    return dict(answer="yes", text="yes\\n", reasons=[sentence_on(it) for it in premises], lines=premises)
def solved(goals):
    found = chosen(list(control.clauses_of(goals[0].split("\\n")[0].removeprefix("install "))), [])
    steps = [{{"action": "unpack", "name": it["Package"], "version": it["Version"], **dict.fromkeys(("filename", "size", "sha256"))}}
             for it in found or ()]
    counts = dict.fromkeys(("unpack", "deconfigure", "configure", "remove", "purge"), 0)
    return dict(answer="plan" if found else "refuted", text="", steps=steps, counts=counts, lines=[])
def chosen(clauses, taken):
    for it in stanzas if clauses else ():
        if any(control.matches(it, atom) for atom in clauses[0]):
            more = () if it in taken else control.clauses_in(it, "Depends")
            found = chosen([*more, *clauses[1:]], [*taken, it])
            if found:
                return found
    return None if clauses else taken
names = words[words.index("--") + 1:] if "--" in words else []
stanzas = [it.fields for keys in control.indices_in(value("--sources")) for it in exchange.stanzas_in(keys["File"])]
if sys.argv[1] == "batch":
    for line in sys.stdin:
        asked = json.loads(line)
        found = checked(asked["refutation"]) if asked["ask"] == "check-refutation" else solved(asked["goals"])
        print(json.dumps({{"id": asked["id"], **found}}), flush=True)
    sys.exit(0)
if any(name not in [it["Package"] for it in stanzas] for name in names):
    sys.stderr.write("debplan: request: E17 UnknownName 1\\n")
    sys.exit(3)
good = list(stanzas)
for _ in stanzas:
    good = [it for it in good if all(any(control.matches(other, atom) for other in good for atom in clause)
                                     for clause in control.clauses_in(it, "Depends"))]
listed = sorted((it for it in stanzas if it["Package"] in names or not names), key=exchange.pair_of)
number, count = map(int, value("--shard", "1/1").split("/"))
asked = listed[number - 1::count]
told = [(surveys.Line("broken", it["Package"], it["Version"]), it) for it in asked if it not in good]
for line, it in told if value("--refutations") else ():
    place = f"{{value('--refutations')}}/{{surveys.file_name(line)}}"
    open(f"{{place}}.request", "w").write(f"install {{it['Package']}} (= {{it['Version']}})\\n")
    open(f"{{place}}.refutation", "w").write(refutation_of(it))
for line, it in told if "--explain" in words else ():
    sys.stderr.write("\\n".join([f"{{surveys.written(line)}}:", *checked(refutation_of(it))["reasons"], ""]))
survey = surveys.Survey(None, [line for line, _ in told], len(asked))
print(survey.text(), end="")
sys.exit(survey.status())
"""
# Programs of sh that go wrong: the second of two shards is killed once, its output is cut short once, or always, or that of another
# list; all shards are refused; the index changes.
WRONG = {
    "killed-once": 'if [ "$3" = 2/2 ] && mkdir once; then kill -9 $$; fi; exec ./debplan "$@"',
    "cut-once": 'if [ "$3" = 2/2 ] && mkdir once; then echo broken b 1; exit 1; fi; exec ./debplan "$@"',
    "cut": 'if [ "$3" = 2/2 ]; then echo broken b 1; echo the disk is full >&2; exit 1; fi; exec ./debplan "$@"',
    "changed": 'if [ "$3" = 2/2 ]; then echo checked 9, broken 0; exit 0; fi; exec ./debplan "$@"',
    "refused": 'echo debplan: index 1: E5 Read >&2; exit 5',
    "changing": 'echo >> changing-index; exec ./debplan "$@"',
}
# The index of testing: the source `tool` has two packages, and so has `lib`; app needs what liba 1 provides.
INDEX = """Package: app
Version: 1
Architecture: all
Depends: api-1

Package: liba
Version: 1
Architecture: all
Source: lib (1-0)
Provides: api-1

Package: libb
Source: lib
Version: 1
Architecture: all

Package: other
Version: 1
Architecture: all
Depends: nowhere

Package: tool
Version: 1
Architecture: all
Depends: libb

Package: tool-data
Version: 1:1
Architecture: all
Source: tool (1:1)
Depends: data
"""
# What unstable has: lib without what app needs, tool with its data, and `other` of another source.
DATA = """Package: data
Version: 1
Architecture: all
Source: tool
"""
FORK = """Package: other
Version: 2
Architecture: all
Source: fork
"""
# What a newer suite has of app, which needs lib as it is there, and one of the two packages of another source.
APP = """Package: app
Version: 2+b1
Architecture: all
Source: app (2-0)
Depends: api-2, plug

Package: plug
Version: 3
Architecture: all
Source: plugin

Package: plug-in
Version: 4
Architecture: all
Source: plugin
Depends: libb (>= 3)
"""
REST = """Package: liba
Version: 2
Architecture: all
Source: lib
Provides: api-2

Package: libb
Version: 2
Architecture: all
Source: lib

Package: tool
Version: 2
Architecture: all
Depends: libb (>= 2)

Package: tool-data
Version: 1:2
Architecture: all
Source: tool
Depends: data
"""
# What is left of testing without lib and tool, and with those of unstable.
LEFT = """Package: app
Version: 1
Architecture: all
Depends: api-1

Package: other
Version: 1
Architecture: all
Depends: nowhere
"""
NEXT = f"{LEFT}\n{DATA}\n{REST}\n"
INDICES = f"{hashlib.sha256(INDEX.encode()).hexdigest()}\ttesting\t-\tindex\n"
TEXTS = {
    "index": INDEX, "other": f"{DATA}\n{FORK} \n\n{REST}", "sources": "# testing\nFile: index\nSuite: testing\n",
    "next-sources": "File: next\nSuite: testing\n", "both-sources": "File: index\n\nFile: other\n",
    "far": "Package: top\nVersion: 1\nArchitecture: all\nDepends: app\n", "far-sources": "File: far\n\nFile: index\n",
    "changing-sources": "File: changing-index\n", "changing-index": INDEX, "again": INDEX,
    "\n index": INDEX, "below-sources": "File:\n index\nSuite: testing\n", "again-sources": "# testing\nFile: again\nSuite: testing\n", "named-sources": "File: index\nSuite: stable\n",
    "replaced-1": "checked 3, broken 0\n", "replaced-1.inputs": "shard\t1/2\noutput\tx\n",
    "strange-1": "checked 3, broken 0\n", "strange-1.inputs": "{}\n", "bare-2": WHOLE.replace("checked 6", "checked 3"),
    "other-sources": "File: other\n", "newer": f"{APP}\n{REST}",
    "base": "Package: dash\nVersion: 1\nArchitecture: all\nEssential: yes\nDepends: libb\n", "base-sources": "File: base\n\nFile: index\n",
    "one": "broken a 1~rc1\nbroken a 1.0-1\nchecked 3, broken 2\n", "two": "broken a 1\nchecked 2, broken 1\n",
    "first": "broken a 1\nchecked 1, broken 1\n", "second": "broken b 1\nchecked 1, broken 1\n",
    "whole": WHOLE, "clean": "checked 6, broken 0\n", "kept/empty": "",
    "cut-short": "broken a 1\n", "cut-in-line": "broken a 1\nchecked 2, broken 1", "miscounted": "broken a 1\nchecked 2, broken 2\n",
    "disordered": "broken a 1\nbroken a 1~\nchecked 2, broken 2\n", "strange": "yes\nchecked 2, broken 0\n",
    "based": "broken base\nchecked 2, broken 0\n", "small": "checked 1, broken 0\n", "packed": "\x1f\x8b\x08\n",
    "old": "undecided base\nbroken a 1\nbroken b 1\nundecided c 1\nbroken d 1.0\nchecked 9, broken 3, undecided 1\n",
    "new": "broken a 2\nbroken c 1\nbroken d 1.0-0\nundecided e 1\nchecked 9, broken 3, undecided 1\n",
    "old-index": "package: a\nVersion: 1\nArchitecture: all\n\nPackage: c\nVersion: 1\nArchitecture: all\n",
    "new-index": "Package: a\nVersion: 2\nArchitecture: all\n\nPackage: b\nVersion: 1-0\nArchitecture: all\n",
    "bad/request": "install other\n", "bad/refutation": "refutation 1\ngoal 1\n", "bad/indices": INDICES,
    "broken/request": "install other\n", "broken/refutation": "refutation 1\n", "broken/indices": "testing index\n",
}
MIGRATE = "migrate --index index --from other --output next"
DISORDERED = "they aren't all shards of one list, in order"
# The words, the exit status, what is printed and what is said on standard error, in which .. stands for anything. They run in their
# order, in one folder. With PROGRAM=NAME in front another program is called.
CALLS = [
    *((f"run {ASKING} --processors {count}", 1, WHOLE, "") for count in (1, 2, 3, 7)),
    (f"run --processors=2 {ASKING} -- tool app", 0, "checked 2, broken 0\n", ""),
    (f"run {ASKING} --processors 3 --refutations kept", 1, WHOLE, ""),
    (f"run {ASKING} --processors 2 nobody", 3, "", "debplan: request: E17 UnknownName 1\n"),
    (f"PROGRAM=killed-once run {ASKING} --processors 2", 1, WHOLE, "shard 2/2: was killed by signal 9, and it is run again\n"),
    (f"PROGRAM=cut-once run {ASKING} --processors 2", 1, WHOLE, "shard 2/2: is cut short: .., and it is run again\n"),
    (f"PROGRAM=cut run {ASKING} --processors 2", 5, "", "..shard 2/2: is cut short: .., for the second time\nthe disk is full\n"),
    (f"PROGRAM=changed run {ASKING} --processors 2", 5, "", "shard 1/2: asked about 3 packages, ..; has a file changed meanwhile?\n"),
    (f"PROGRAM=refused run {ASKING} --processors 3", 5, "", "debplan: index 1: E5 Read\n"),
    (f"run {ASKING} --shard 1/2", 64, "", "run: --shard K/N and --output FILE belong together, ..\n"),
    (f"run {ASKING} --shard 1/2 --output part --report part-report", 64, "", "run: --shard K/N ..\n"),
    (f"run {ASKING} --shard 3/2 --output part", 64, "", "run: --shard 3/2: that is no shard, as 2/4 is one\n"),
    (f"run {ASKING} --shard 1/2 --output index", 64, "", "index: is read, so it can't be the output\n"),
    (f"run {ASKING} --shard 1/2 --output nowhere/part", 5, "", "nowhere/part: the output can't be written: ..\n"),
    (f"run {ASKING} --shard 2/2 --output part nobody", 3, "", "debplan: request: E17 UnknownName 1\n"),
    (f"PROGRAM=killed-once run {ASKING} --shard 2/2 --output part-2", 1, "", "shard 2/2: was killed by signal 9, and ..\n"),
    ("PROGRAM=changing run --arch amd64 --sources changing-sources --shard 2/2 --output part", 5, "",
     "changing-index: has changed meanwhile\n"),
    (f"run {ASKING} --shard=1/2 --output=part-1", 0, "", ""),
    ("run --arch amd64 --sources again-sources --shard 2/2 --output again-2", 1, "", ""),
    ("run --arch amd64 --sources other-sources --shard 1/2 --output other-1", 0, "", ""),
    ("run --arch amd64 --sources named-sources --shard 2/2 --output named-2", 1, "", ""),
    (f"run {ASKING} --all-versions --shard 2/2 --output all-2", 1, "", ""),
    (f"run {ASKING} --shard 2/2 --output few-2 tool-data other", 1, "", ""),
    ("merge part-1 part-2", 0, WHOLE, ""),
    ("merge part-1 again-2", 0, WHOLE, ""),
    ("merge part-2 part-1", 1, "", "part-2: is shard 2/2, by part-2.inputs, and stands in the place of 1/2\n"),
    ("merge other-1 part-2", 1, "", "part-2: its index 1, index, is another one than that of other-1, other: its SHA256 is ..\n"),
    ("merge part-1 named-2", 1, "", "named-2: its --sources, named-sources, is another one than that of part-1, sources: ..\n"),
    ("merge part-1 all-2", 1, "", "all-2: was asked with option --all-versions, and part-1 wasn't\n"),
    ("merge part-1 few-2", 1, "", "few-2: was asked with name other, and part-1 wasn't\n"),
    ("merge replaced-1 part-2", 1, "", "replaced-1.inputs: isn't about replaced-1, whose SHA256 is ..\n"),
    ("merge strange-1 part-2", 1, "", "strange-1.inputs: line 1 doesn't say what a shard was asked with\n"),
    ("merge part-1 bare-2", 0, WHOLE, "bare-2: there is no bare-2.inputs, so nothing says over which inputs it is\n"),
    (f"run {ASKING} --shards 2", 64, "", "run: --shards is about the workers of a --scheduler; ..\n"),
    (f"run {ASKING} --hand-over", 64, "", "run: --hand-over is about the workers of a --scheduler\n"),
    (f"run {ASKING} --scheduler tls://127.0.0.1:1 --tls-ca index", 64, "", "run: --tls-ca, --tls-cert, --tls-key belong together\n"),
    (f"run {ASKING} --scheduler tls://127.0.0.1:1 --tls-ca index --tls-cert no --tls-key index", 64, "", "no: can't be read\n"),
    (f"run {ASKING} --scheduler tcp://127.0.0.1:1", 69, "", "--scheduler needs Dask, ..: install Debian's python3-distributed\n"),
    ("pages report --output pages", 69, "", "pages needs jinja2, ..: install Debian's python3-jinja2\n"),
    (f"run {ASKING} --processors none", 64, "", "..none.."),
    ("merge one two", 0, "broken a 1~rc1\nbroken a 1\nbroken a 1.0-1\nchecked 5, broken 3\n", ""),
    ("merge two one", 1, "", f"two: asked about 2 packages, and shard 1/2 of all these has 3: {DISORDERED}\n"),
    ("merge two two", 1, "", f"two: a 1 can't be ..: {DISORDERED}\n"),
    ("merge first second", 0, "broken a 1\nbroken b 1\nchecked 2, broken 2\n", ""),
    ("merge second first", 1, "", f"second: b 1 can't be of shard 1/2 of 2 packages: {DISORDERED}\n"),
    ("merge one cut-short", 1, "", "cut-short: is cut short: its last line isn't `checked ..`\n"),
    ("merge cut-in-line two", 1, "", "cut-in-line: is cut short: ..\n"),
    ("merge one miscounted", 1, "", "miscounted: its last line doesn't count its lines, `checked 2, broken 2`\n"),
    ("merge one disordered", 1, "", "disordered: a 1~ stands behind a 1, ..\n"),
    ("merge one strange", 1, "", "strange: line 1 is none ..\n"),
    ("merge one based", 1, "", "based: says of the base `broken`, and one `nothing`\n"),
    ("merge one two nowhere", 1, "", "nowhere: No such file or directory\n"),
    ("merge", 64, "", ".."),
    ("compare old new", 1, "newly broken a 2\nnewly broken c 1\nnewly undecided e 1\nmended a 1\nmended b 1\nstill broken 1\n", ""),
    ("compare old new --old-index old-index --new-index new-index", 1, "newly broken c 1\ncame broken a 2\nnewly undecided e 1\n"
     "mended b 1\ngone a 1\nstill broken 1\n", ""),
    ("compare two two", 0, "still broken 1\n", ""),
    ("compare based small", 0, "mended base\nstill broken 0\n", ""),
    ("compare old new --old-index packed", 1, "", "packed: stanza 1: line 1 is no field: .., so this is no index ..\n"),
    ("compare small two --refutations bad --", 64, "", "--arch is missing ..\n"),
    (f"compare small two --refutations bad -- {ASKING}", 1, "newly broken a 1\n  bad/a_1.request: is missing, ..\nstill broken 0\n", ""),
    (f"compare clean whole --refutations kept -- {ASKING}", 1, "newly broken other 1\n  ..nowhere..\nnewly broken tool-data 1:1\n"
     "  ..data..\nstill broken 0\n", ""),
    ("compare clean whole --refutations kept -- --arch amd64 --sources other-sources", 1, "newly broken other 1\n  its refutation isn't "
     "accepted with these OPTIONS: no line ..\nnewly broken tool-data 1:1\n  ..still broken 0\n", ""),
    (f"{MIGRATE} fork", 0, "next: 0 taken out, 1 put in\n", "other 2 stands beside 1 of the source other\n"),
    (f"{MIGRATE} tool -- --check {ASKING}", 1, "next: 2 taken out, 3 put in\ncame broken tool 2\n  ..libb (>= 2)..\n  needs lib 2\n"
     "gone tool-data 1:1\nstill broken 0\nwith lib:\nnewly broken app 1\n  ..api-1..\nwould have to come along: lib\n",
     "3 names can have changed: their packages are asked about\narchive-check: 6 names can have changed: ..\n"),
    (f"migrate --index index --from newer --output newer-next lib --check -- {ASKING}", 1, "newer-next: ..\n"
     "newly broken app 1\n  ..api-1..\n  needs app 2-0, plugin 3\nstill broken 0\nwith app plugin:\ncame broken plug-in 4\n"
     "  ..libb (>= 3)..\nwould have to come along: app plugin\n", ".."),
    (f"{MIGRATE} lib --check -- --arch amd64 --sources both-sources --all-versions", 1, "next: ..\nnewly broken app 1\n  ..api-1..\n"
     "still broken 0\n", "4 names ..\n"),
    (f"{MIGRATE} lib --check -- --arch amd64 --sources far-sources", 1, "next: ..\nnewly broken app 1\n  ..api-1..\nnewly broken top 1\n"
     "  ..still broken 0\n", "5 names ..\n"),
    (f"{MIGRATE} lib --check -- --arch amd64 --sources base-sources", 1, "next: ..\nnewly broken app 1\n  ..api-1..\n"
     "still broken 2\n", "dash stands beside each package, and can have changed: all packages are asked about\n"),
    (f"{MIGRATE} lib tool --check -- {ASKING}", 1, "next: 4 taken out, 5 put in\nnewly broken app 1\n  ..api-1..\n"
     "gone tool-data 1:1\nstill broken 0\n", "6 names can have changed: their packages are asked about\n"),
    ("migrate --index index --from other --output new-next lib -- --arch amd64 --sources next-sources", 1, "",
     "next-sources: names no index index\n"),
    (f"{MIGRATE} nobody", 1, "", "index: has no package of the source nobody, nor has other\n"),
    ("migrate --index other --from packed --output next lib", 1, "", "packed: stanza 1: line 1 is no field: .., so this is no index ..\n"),
    ("migrate --index index --from other --output index lib", 64, "", "index: is read, so it can't be the output\n"),
    (f"run {ASKING} --report report", 1, WHOLE, ""),
    (f"run {ASKING} --report report", 1, "", "report: isn't empty\n"),
    (f"verify report -- {ASKING}", 0, "report/other_1: yes\nreport/tool-data_1:1: yes\n", ""),
    (f"verify report/other_1 -- {ASKING}", 0, "report/other_1: yes\n", ""),
    ("verify report/other_1 -- --arch amd64 --sources next-sources", 1, "report/other_1: index 1, next, is another one than testing "
     "index: its SHA256 is .. and not ..\n", ""),
    ("verify report/other_1 -- --arch amd64 --sources both-sources", 1,
     "report/other_1: is about 1 indices, and both-sources names 2\n", ""),
    (f"verify bad -- {ASKING}", 1, "bad: no line .., and the indices are those of the report: ..\n", ""),
    (f"verify broken -- {ASKING}", 1, "", "broken/indices: line 1 doesn't have ..\n"),
    (f"verify nowhere -- {ASKING}", 1, "", "nowhere: No such file or directory\n"),
    (f"verify . -- {ASKING}", 1, "bad: no line ..", "broken/indices: line 1 doesn't have ..\n"),
    ("run --arch amd64 --sources below-sources other --report below", 1, "broken other 1\nchecked 1, broken 1\n", ""),
    ("verify below -- --arch amd64 --sources below-sources", 0, "below/other_1: yes\n", ""),
    ("verify below -- --arch amd64 --sources named-sources", 0, "below/other_1: yes\n", ""),
    (f"run {ASKING} tool --report none", 0, "checked 1, broken 0\n", ""),
    (f"verify none -- {ASKING}", 0, "", ""),
]
# What these calls leave.
WRITTEN = {"next": NEXT, "below/indices": INDICES.replace("index", "\\n index"), "kept/other_1.request": "install other (= 1)\n", "report/other_1/request": "install other (= 1)\n",
           "report/other_1/refutation": "..", "report/other_1/sentences": "..nowhere..", "report/other_1/indices": INDICES,
           "report/other_1/relations": "depends\tnowhere\tother 1\n", "report/indices": INDICES, "report/when": "2..Z\n",
           "report/survey": WHOLE, "none/survey": "checked 1, broken 0\n",
           "report/tool-data_1:1/stanza.txt": "Package: tool-data\nVersion: 1:1\nArchitecture: all\nSource: tool (1:1)\nDepends: data\n"}


# The merging of all small lists


def lists():
    """The lists of up to eight packages: of the short ones each may be undecided too."""
    names = ("a 1~", "a 1", "a+ 1:0", "b 10", "b 9:1", "c 1", "d 1", "e 1")
    for count in range(len(names) + 1):
        for states in itertools.product((None, "broken", "undecided") if count < 4 else (None, "broken"), repeat=count):
            yield [surveys.Line(state, *name.split()) for state, name in zip(states, names)]


def survey_over(packages):
    return surveys.Survey("broken", [line for line in packages if line.state], len(packages))


def merged_lists():
    """The lists that aren't the whole again where their shards are merged, by the number of shards."""
    for packages, count in itertools.product(lists(), (1, 2, 3, 7)):
        texts = [survey_over(packages[number::count]).text() for number in range(count)]
        whole = survey_over(packages).text()
        try:
            found = surveys.merged([surveys.survey_of(text, "a shard") for text in texts], ["a shard"] * count).text()
        except Failure as failure:
            found = str(failure)
        if found != whole:
            yield f"{count} shards of\n{whole}are\n{found}"


def write_files(room, program):
    """Writes the texts and the programs, of which debplan is a link to the program, if there is one."""
    scripts = {name: f"#!/bin/sh\n{script}\n" for name, script in WRONG.items()}
    if program:
        (room / "debplan").symlink_to(program)
    else:
        scripts["debplan"] = PROGRAM.format(python=sys.executable, package=str(TOOL.parent.parent / "python"))
    for name, text in {**TEXTS, **scripts}.items():
        (room / name).parent.mkdir(exist_ok=True)
        (room / name).write_text(text, encoding="utf-8")
        (room / name).chmod(0o755)


def tried_by(program):
    """Yields of each call, and of each file that the calls leave, why it isn't as it is wanted, or None."""
    with tempfile.TemporaryDirectory(prefix="debplan-archive-") as folder:
        room = pathlib.Path(folder)
        write_files(room, program)
        yield from (fails(room, call) for call in CALLS)
        yield from (differs(room, *it) for it in WRITTEN.items())
        yield from archive_migration.tried_in(room)
        yield from archive_cluster.tried_in(room)
        yield from archive_pages.tried_in(room)


class Archives(Rows):
    """`archive-check` over small texts."""

    def test_merged_lists(self):
        self.check([next(merged_lists(), None)])

    def test_by_a_stand_in(self):
        self.check(tried_by(None))

    @unittest.skipUnless(os.access(BUILT, os.X_OK), f"what the program answers, for there is no {BUILT}")
    def test_by_the_program(self):
        self.check(tried_by(BUILT))

    def test_what_needs_packages_of_debian(self):
        self.leave_out([*archive_cluster.left_out(), *archive_pages.left_out()])
