"""What the program may print and with which exit status, by docs/FORMATS.md: for dev/fuzz."""
import collections
import re

Printed = collections.namedtuple("Printed", "status out err")
NAME, LINE, INDEX = rb"[A-Za-z0-9][A-Za-z0-9+.-]*", rb"[1-9][0-9]*", rb"index [1-9][0-9]*"
VERSION, PAIR, LITERAL = rb"[A-Za-z0-9.+:~-]+", rb"[1-9][0-9]*", rb"-?[1-9][0-9]*"
KIND = rb"(?:Empty|BadEpoch|EpochTooLarge|EmptyUpstream|EmptyRevision|BadByte)"
STEP = rb"(?:unpack %s %s|(?:deconfigure|remove|purge) %s|configure %s(?: %s)*)\n" % (NAME, VERSION, NAME, NAME, NAME)
OF_TWO = rb"(?:same|predepends|depends|conflicts|breaks) %s %s" % (PAIR, PAIR)
PREMISE = rb"(?:%s|goal %s(?: %s)?|hold %s|(?:essential|keep) %s)" % (OF_TWO, PAIR, PAIR, PAIR, NAME)
DERIVED = rb"derive(?: %s)* :(?: %s)+" % (LITERAL, PAIR)
RULE = b"F(?:1 PreDepends|2 Conflict|3 Breaks|4 Depends|5 Group|6 NeededBy|7 Essential|8 Held|9 WrongState|10 NotAdmitted)"
REASON = rb"(?:(?:Unfinished|Relation|Essential) %s|Goal %s)" % (NAME, LINE)
VERDICT = rb"no (?:start F0 StartConflict|step %s %s|end F11 %s)\n" % (LINE, RULE, REASON)
# A name with its candidate, and a name that has none.
FOUND = rb"%s %s -?[0-9]+\n" % (NAME, VERSION)
LACKING = rb"[^\n]* none\n"
# What is said of the base and of packages, where none is undecided and where some are; the last line, as far as what follows there.
BROKEN = rb"(?:broken base\n)?(?:broken %s %s\n)*" % (NAME, VERSION)
UNSURE = rb"(?:(?:broken|undecided) base\n)?(?:(?:broken|undecided) %s %s\n)*" % (NAME, VERSION)
COUNTS = rb"checked [0-9]+, broken [0-9]+"
# Of each command what it prints with each exit status. `undecided unchecked` is a bug of the program.
ANSWERS = {
    "compare": {0: rb"yes\n", 1: rb"no\n"},
    "candidate": {0: rb"(?:%s)+" % FOUND, 1: rb"(?:%s)*%s(?:%s|%s)*" % (FOUND, LACKING, FOUND, LACKING)},
    "installable": {0: rb"checked [0-9]+, broken 0\n", 1: rb"%s%s\n" % (BROKEN, COUNTS),
                    2: rb"%s%s(?:, undecided %s)?\n" % (UNSURE, COUNTS, LINE)},
    "check-plan": {0: rb"yes\n", 1: VERDICT},
    "check-refutation": {0: rb"yes\n", 1: rb"no line %s\n" % LINE},
    "solve": {0: rb"(?:plan 1\n(?:%s)*|plan 2\n(?:%s)*end [0-9]+\n)" % (STEP, STEP), 1: rb"refutation 1\n(?:(?:%s|%s)\n)+" % (PREMISE, DERIVED),
              2: rb"undecided (?:limit [0-9]+|blocked start|blocked stuck)\n"},
    "apply": {0: rb"applied [0-9]+\n", 1: VERDICT},
}
# Of words that begin with none of them, as --version and --help do.
HELP = {0: rb"(?s:.+)"}
CONTROL = rb"(?:status|sources|%s|preferences)" % INDEX
PACKAGES = rb"(?:status|%s)" % INDEX
TEXT = rb"(?:status|sources|%s|preferences|request|plan|refutation)" % INDEX
# Of each refusal where it may be, with the exit status.
REFUSALS = {
    3: [rb"%s: E(?:2 BadLine|3 BadFieldName|4 DuplicateField) %s" % (CONTROL, LINE), rb"version [12]: E6 BadVersion %s" % KIND,
        rb"%s: E6 BadVersion %s %s" % (PACKAGES, LINE, KIND), rb"%s: E(?:7 BadRelation|8 BadName) %s [0-9]+" % (PACKAGES, LINE),
        rb"%s: E9 MissingField %s [A-Za-z-]+" % (CONTROL, LINE), rb"(?:%s|journal): E10 TooLarge" % TEXT,
        rb"preferences: E11 BadPin %s" % LINE, rb"status: E12 BadStatus %s" % LINE,
        rb"status: E(?:13 DuplicatePackage|14 ForeignArchitecture) %s" % NAME,
        rb"request: E(?:16 BadRequest|17 UnknownName) %s" % LINE, rb"plan: E18 BadPlan %s" % LINE,
        rb"refutation: E19 BadRefutation %s" % LINE, rb"%s: E28 Changed" % INDEX,
        rb"journal: E(?:21 NotAJournal|22 Damaged [0-9]+|25 JournalMismatch|29 OtherArchitecture)"],
    5: [rb"memory: E1 OutOfMemory", rb"%s: E5 Read" % TEXT, rb"journal: E20 Disk", rb"(?:output|refutations|request-out): E26 Write"],
}
FORMS = {status: re.compile(rb"debplan: (?:%s)\n" % b"|".join(forms)) for status, forms in REFUSALS.items()}
OF_A_LINE = re.compile(rb"debplan: (status|sources|preferences|request|plan|refutation): E[0-9]+ [A-Za-z]+ ([0-9]+)(?: |\n)")


def faults_of(printed, texts, kind, is_call):
    """What is wrong with what was printed, over these texts, by a command of this kind; its words may be ones that the program
    refuses or has help for."""
    if printed.status is None:
        return ["it had not ended in time"]
    if printed.status < 0:
        return [f"it was ended by signal {-printed.status}"]
    if printed.status in FORMS:
        # (of installable the number behind `request` is that of a name among the words)
        lined = {name: text for name, text in texts.items() if kind != "installable" or name != "request"}
        return faults_of_refusal(printed, lined)
    if printed.status == 4 and not is_call:
        return [] if printed.err and not printed.out else ["a usage that isn't on standard error alone"]
    if printed.status not in (0, 1, 2):
        return [f"its exit status is {printed.status}"]
    faults = ["there is something on standard error"] if printed.err else []
    form = ANSWERS.get(kind, HELP).get(printed.status) if is_call else rb"(?s:.*)"
    if form is None or not re.fullmatch(form, printed.out):
        faults.append(f"it is no answer of {kind} with status {printed.status}")
    return faults


def faults_of_refusal(printed, texts):
    """What is wrong with a refusal: its one line is of a form, and names a line that the text has."""
    faults = ["there is something on standard output"] if printed.out else []
    if not FORMS[printed.status].fullmatch(printed.err):
        faults.append(f"standard error isn't one line of a refusal with status {printed.status}")
    named = OF_A_LINE.fullmatch(printed.err) or OF_A_LINE.match(printed.err)
    if named:
        text = texts.get(named[1].decode())
        if text is not None and int(named[2]) > text.count(b"\n") + 1:
            faults.append(f"the text has no line {int(named[2])}")
    return faults


def told(printed, kind):
    """What was met, in a word: the code of the refusal, or the first word of the answer."""
    if printed.status in (3, 5):
        return (re.findall(rb"E[0-9]+", printed.err) or [b"?"])[0].decode()
    if printed.status in (0, 1, 2):
        word = printed.out.split(b"\n")[0].split(b" ")
        return f"{kind} {word[0].decode('utf-8', 'replace') if kind != 'candidate' else ('found', 'none', '')[printed.status]}"
    return f"status {printed.status}"
