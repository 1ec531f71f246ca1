"""Reads scenarios of debplan, texts of the form that scenarios/README.md gives: `scenarios_of(text)` answers each of them with
its inputs, its commands, and the faults of its lines. It runs nothing and prints nothing."""
import functools
import json
import pathlib
import re
from dataclasses import dataclass, field

DECISIONS = pathlib.Path(__file__).resolve().parent.parent / "docs" / "DECISIONS.md"
# dpkg(1), "Package selection states", "Package flags" and "Package states".
WANTS = ("unknown", "install", "hold", "deinstall", "purge")
FLAGS = ("ok", "reinstreq")
STATES = ("not-installed", "config-files", "half-installed", "unpacked", "half-configured", "triggers-awaited", "triggers-pending",
          "installed")
FILE = re.compile(r"status|sources|preferences|request|plan|index[0-9]+")
# The files that the command `apply` writes, beside the one that it reads.
WRITTEN = ("journal", "output")
# The commands with the words that may stand behind each, and of those that have a text of their own its first line.
COMMANDS = {"compare": r"[^ ]* [^ ]* [^ ]*", "candidate": r"[^ ]+( [^ ]+)*", "check-plan": r"|--explain", "check-refutation": r"|--explain",
            "solve": r"|--explain|(--explain )?--limit [^ ]+", "apply": "", "run": r".*"}
HEADS = {"check-plan": b"plan 1\n", "check-refutation": b"refutation 1\n", "apply": b"plan 1\n", "run": b"plan 1\n"}
# What may stand behind `wants`: its place in their order, and the commands that it belongs to.
BEHIND = {"leaves": (1, ("check-plan",)), "dpkg": (2, ("check-plan",)), "dpkg leaves": (3, ("check-plan",)),
          "apt": (2, ("candidate",)), "decision": (4, ("check-plan", "candidate")), "output": (1, ("apply",)), "journal": (2, ("apply",)),
          "tells": (0, tuple(COMMANDS))}


class Fault(Exception):
    """What is wrong with a line."""


def need(holds, fault):
    """Refuses the line with this fault where something doesn't hold."""
    if not holds:
        raise Fault(fault)


@dataclass
class Item:
    """A line in column 1, as its first word and the rest behind one space, with the indented lines below it, its block. A line
    is its number and its text."""

    line: int
    word: str
    rest: str
    block: list


@dataclass
class Wanted:
    """What is wanted of a command: an `output`, a `refusal`, the refusal of words (`usage`), `help`, a `plan` or a
    `refutation`; its exit status; the text that is said of it, of a plan what is installed at its end; and the sentences behind that
    on standard error."""

    form: str
    status: int
    text: bytes = b""
    told: bytes = b""

    def errors(self):
        """What is wanted on standard error."""
        return (b"debplan: " + self.text + b"\n" if self.form == "refusal" else b"") + self.told

    def described(self):
        """In words."""
        behind = " and sentences" if self.told else ""
        return {
            "output": described(self.status, self.text, self.errors()),
            "refusal": described(self.status, b"", self.errors()),
            "usage": "status 4 and something on standard error alone",
            "help": "status 0 and something on standard output alone",
            "plan": "status 0 and a plan that is judged good" + behind,
            "refutation": "status 1 and a refutation that is accepted" + behind,
        }[self.form]


@dataclass
class Command:
    """A command: the number of its line, its kind with the words behind that, the text of its plan or refutation, what is
    wanted of it, what is said behind that, by the words that it begins with, and what the files have then that it writes: None
    stands for no file, and without a word a file is as it was."""

    line: int
    kind: str
    rest: str
    text: bytes = None
    wanted: Wanted = None
    behind: dict = field(default_factory=dict)
    written: dict = field(default_factory=dict)

    def file(self):
        """The file that such a command may have itself."""
        return "refutation" if self.kind == "check-refutation" else "plan"

    def words(self, scenario):
        """The words of the program's command line over the inputs of the scenario."""
        if self.kind == "run":
            return self.rest.split(" ") if self.rest else []
        words = [self.kind, *(scenario.option_words() if self.kind != "compare" else [])]
        if self.kind not in ("compare", "candidate"):
            words += scenario.request_words()
        if self.kind == "apply":
            words += ["--journal", "journal", "--output", "output"]
        words += self.rest.split(" ") if self.rest else []
        return words + ([self.file()] if self.kind in HEADS else [])

    def said(self, word):
        """What is said behind a word, or nothing."""
        return self.behind.get(word, "")

    def answer(self):
        """The output that is wanted, where it is known."""
        return self.wanted.text.decode("utf-8", "replace") if self.wanted.form == "output" else ""

    def is_explained(self):
        """Whether a decision is named exactly where dpkg or apt answers otherwise, or dpkg leaves something else."""
        leaves, dpkg_leaves = self.said("leaves"), self.said("dpkg leaves")
        differs = leaves and dpkg_leaves and leaves != dpkg_leaves
        differs = differs or not agrees(self.said("dpkg"), self.answer()) or self.said("apt") not in ("", "agrees")
        return bool(differs) == bool(self.said("decision"))


@dataclass
class Scenario:
    """A scenario: its heading, the texts of the files that were given, what its lines `index` make of the sources, the files
    that are missing, its options, its goals where `--goal` gives them, its standard input, its commands, and its faults, each with
    the number of its line."""

    heading: str = ""
    texts: dict = field(default_factory=dict)
    made_sources: bytes = b""
    missing: list = field(default_factory=list)
    options: dict = field(default_factory=dict)
    goals: list = None
    input: bytes = b""
    commands: list = field(default_factory=list)
    faults: list = field(default_factory=list)

    def files(self):
        """The texts of the files that are there, by their names."""
        texts = {"status": b"", "sources": self.made_sources, "request": b"", **self.texts}
        return {name: text for name, text in texts.items() if name not in self.missing}

    def index_names(self):
        """The names of its indices, in their order."""
        return [name for name in self.texts if name.startswith("index")]

    def option_words(self):
        """The options of a command that reads texts."""
        words = ["--arch", self.options.get("arch", "amd64"), "--status", "status", "--sources", "sources"]
        if "preferences" in self.texts or "preferences" in self.missing:
            words += ["--preferences", "preferences"]
        return words + (["--target", self.options["target"]] if "target" in self.options else [])

    def request_words(self):
        """The options that say what is requested."""
        if self.goals is None:
            return ["--request", "request"]
        return [word for goal in self.goals for word in ("--goal", goal)]


def described(status, out, err):
    """An exit status and what is printed, in words."""
    out, err = (json.dumps(text.decode("utf-8", "replace"), ensure_ascii=False) for text in (out, err))
    return f"status {status}, output {out}, errors {err}"


def agrees(dpkg, answer):
    """Whether our answer on the steps is dpkg's, where that is said. dpkg doesn't judge the end."""
    if dpkg == "yes":
        return answer == "yes\n" or answer.startswith("no end ")
    return not dpkg or answer.startswith(dpkg + " ")


def is_word(text):
    return text != "" and " " not in text


# What blocks stand for.


def whole_line(line):
    """The bytes of a line of whole text, which stands behind a bar."""
    need(line.startswith("|"), "a line without `|` in whole text")
    text, rest = bytearray(), line[1:].encode()
    while rest:
        plain, slash, rest = rest.partition(b"\\")
        text += plain
        if rest[:1] == b"c" and slash:
            need(rest == b"c", "`\\c` in the midst of a line")
            return bytes(text)
        if slash:
            byte, rest = escaped(rest)
            text += byte
    return bytes(text) + b"\n"


def escaped(rest):
    """The byte of an escape, and what stands behind it in the line."""
    need(rest, "an escape that isn't ended")
    if rest[:1] != b"x":
        need(rest[:1] in (b"\\", b"t"), "an unknown escape")
        return (b"\t" if rest[:1] == b"t" else b"\\"), rest[1:]
    digits = re.match(rb"[0-9A-Fa-f]{0,2}", rest[1:]).group()
    need(len(digits) == min(2, len(rest) - 1), "no hexadecimal digit")
    need(len(digits) == 2, "an escape that isn't ended")
    return bytes.fromhex(digits.decode()), rest[3:]


def plain_line(line):
    return line.encode() + b"\n"


def record(line):
    """The fields that a line has with `; ` between them, and an empty line."""
    return ("\n".join(fields_in(line)) + "\n\n").encode()


def fields_in(line):
    """The fields that a line has with `; ` between them."""
    fields = line.split("; ")
    for text in fields:
        name, colon, value = text.partition(":")
        need(is_word(name) and colon and value[:1] in ("", " "), f"not a field: {text}")
    return fields


def stanza(line):
    """The stanza that a line such as `[installed] foo 1; Depends: bar` stands for, and an empty line."""
    status, line = cut_status(line)
    head, behind, fields = line.partition("; ")
    name, space, version = head.partition(" ")
    need(is_word(name), f"no name of a package: {head}")
    need(not space or is_word(version), f"no version: {head}")
    lines, fields = [f"Package: {name}", *status], fields_in(fields) if behind else []
    if space:
        given = next((text for text in fields if text.startswith("Architecture:")), None)
        lines += [f"Version: {version}", given or "Architecture: all"]
        fields = [text for text in fields if text is not given]
    return ("\n".join(lines + fields) + "\n\n").encode()


def cut_status(line):
    """The field of the status that stands in brackets, if there is one, and the rest of the line. One word is the state of a
    package that is to be there and has nothing wrong."""
    if not line.startswith("["):
        return [], line
    words, end, rest = line[1:].partition("] ")
    need(end, "a status without its end")
    selection, _, state = words.rpartition(" ")
    selection = selection or "install ok"
    want, _, flag = selection.partition(" ")
    need(want in WANTS and flag in FLAGS, f"an unknown want or flag: {selection}")
    need(state in STATES, f"an unknown state: {state}")
    return [f"Status: {selection} {state}"], rest


FORMS = {"status": stanza, "index": stanza, "preferences": record, "request": plain_line, "sources": whole_line, "journal": whole_line}


def text_of(scenario, block, form, head=b""):
    """The text of a block whose lines have this form, behind a first line, or that of a block of whole text alone. The faults
    of its lines go into the scenario."""
    text, is_whole = head, block and block[0][1].startswith("  |")
    if is_whole:
        text, form = b"", whole_line
    for number, line in block:
        try:
            need(line.startswith("  "), "a line that is neither in column 1 nor indented by two spaces")
            need(form is whole_line or line[2:3] != "|", "a line of whole text among others")
            text += form(line[2:])
        except Fault as fault:
            scenario.faults.append((number, str(fault)))
    return text


# Inputs, commands, and what is wanted and said of them.


def add_input(scenario, item):
    """Adds an input, or says that the item is none."""
    if item.word in FORMS:
        add_text(scenario, item)
    elif item.word in ("goals", "input"):
        need(not item.rest, f"words behind `{item.word}`")
        (add_goals if item.word == "goals" else add_standard_input)(scenario, item)
    elif item.word in ("arch", "target", "missing"):
        need(is_word(item.rest), f"not one word behind `{item.word}`")
        need(not item.block, f"a block below `{item.word}`")
        (add_missing if item.word == "missing" else add_option)(scenario, item)
    else:
        return False
    return True


def add_text(scenario, item):
    """Adds a file; an index is also one of the sources, with its keys."""
    name = item.word
    if name == "index":
        name = f"index{len(scenario.index_names()) + 1}"
        scenario.made_sources += record("; ".join([f"File: {name}", *filter(None, [item.rest])]))
    else:
        need(not item.rest, f"words behind `{name}`")
    text = text_of(scenario, item.block, FORMS[item.word])
    need(name not in scenario.texts, f"`{name}` a second time")
    scenario.texts[name] = text


def add_goals(scenario, item):
    """Adds the goals that options give, a line each."""
    need(scenario.goals is None, "`goals` a second time")
    scenario.goals = text_of(scenario, item.block, plain_line).decode().splitlines()


def add_standard_input(scenario, item):
    """Adds the text of standard input."""
    need(not scenario.input, "`input` a second time")
    scenario.input = text_of(scenario, item.block, plain_line)


def add_option(scenario, item):
    need(item.word not in scenario.options, "an option a second time")
    scenario.options[item.word] = item.rest


def add_missing(scenario, item):
    need(FILE.fullmatch(item.rest), f"an unknown file: {item.rest}")
    need(item.rest not in scenario.missing, f"`missing {item.rest}` a second time")
    scenario.missing.append(item.rest)


def add_command(scenario, item):
    """Adds a command. Its faults go into the scenario."""
    if not re.fullmatch(COMMANDS[item.word], item.rest):
        scenario.faults.append((item.line, "other words than the command takes"))
    command = Command(item.line, item.word, item.rest)
    if item.word in HEADS and (item.block or item.word != "run"):
        command.text = text_of(scenario, item.block, plain_line, HEADS[item.word])
    elif item.block:
        scenario.faults.append((item.line, "a block below a command that takes none"))
    scenario.commands.append(command)


def wanted_of(scenario, item):
    """What an item `wants` says."""
    word, _, rest = item.rest.partition(" ")
    if word in ("0", "1", "2"):
        return Wanted("output", int(word), output_of(scenario, rest, item.block))
    need(not item.block, f"a block below `wants {word}`")
    if word in ("3", "5") and rest:
        return Wanted("refusal", int(word), rest.encode())
    forms = {"4": ("usage", 4), "help": ("help", 0), "plan": ("plan", 0), "refutation": ("refutation", 1)}
    need(word in forms and (word == "plan" or not rest), "an unknown word behind `wants`")
    return Wanted(*forms[word], rest.encode())


def output_of(scenario, line, block):
    """The line behind the status, or the lines below it."""
    need(line or block, "nothing is wanted but a status")
    need(not (line and block), "both a line and a block are wanted")
    return text_of(scenario, block, plain_line) if block else plain_line(line)


def add_wanted(scenario, item):
    need(scenario.commands, "`wants` before a command")
    command = scenario.commands[-1]
    need(not command.wanted, "`wants` a second time")
    command.wanted = wanted_of(scenario, item)


def add_behind(scenario, item):
    """Adds what is said behind what is wanted of the last command, or says that the item says no such thing."""
    word, rest = item.word, item.rest
    if word == "dpkg" and rest.startswith("leaves "):
        word, rest = "dpkg leaves", rest[len("leaves "):]
    if word not in BEHIND or not scenario.commands:
        return False
    command, (turn, kinds) = scenario.commands[-1], BEHIND[word]
    if word in WRITTEN and command.kind not in kinds:
        return False
    need(command.kind in kinds, f"`{item.word}` behind another command")
    need(all(BEHIND[earlier][0] < turn for earlier in command.behind), f"`{item.word}` a second time, or behind what it stands before")
    if word == "tells":
        add_told(scenario, command, item)
        return True
    if word in WRITTEN:
        command.behind[word] = ""
        command.written[word] = written_of(scenario, item)
        need(command.wanted, f"`{item.word}` before `wants`")
        return True
    need(item.rest, f"nothing behind `{item.word}`")
    need(not item.block, f"a block below `{item.word}`")
    command.behind[word] = ""
    check_behind(word, rest)
    command.behind[word] = rest
    need(command.wanted, f"`{item.word}` before `wants`")
    return True


def add_told(scenario, command, item):
    """Adds the sentences that stand on standard error behind what is wanted."""
    need(command.wanted, "`tells` before `wants`")
    need(item.block and not item.rest, "no sentences below `tells`, or words behind it")
    need(command.wanted.form not in ("usage", "help"), "`tells` behind what has no sentences")
    command.behind["tells"] = ""
    command.wanted.told = text_of(scenario, item.block, plain_line)


def written_of(scenario, item):
    """The text that a file has behind a command, or nothing where there is none then."""
    need(item.rest in ("", "none"), f"an unknown word behind `{item.word}`")
    need(bool(item.block) != bool(item.rest), f"neither a text nor none of `{item.word}`, or both")
    return None if item.rest else text_of(scenario, item.block, whole_line)


def check_behind(word, rest):
    """Refuses what is no answer of dpkg, and what are no records, as `a installed 1, b unpacked 2 config 1`."""
    if word == "dpkg":
        need(re.fullmatch(r"yes|no step [0-9]+( .*)?", rest), f"no answer of dpkg: {rest}")
    elif word.endswith("leaves") and rest != "nothing":
        for text in rest.split(", "):
            name, space, words = text.partition(" ")
            need(space, f"no record: {text}")
            need(name and words.split(" ")[0] in STATES, f"an unknown state: {text}")


# Whole scenarios.


def add_item(scenario, item):
    """Adds what a line in column 1 says, with its block."""
    need(item.word, "an indented line below nothing")
    if item.word == "==":
        need(item.rest, "an empty heading")
        need(not item.block, "a block below a heading")
        scenario.heading = item.rest
    elif item.word == "wants":
        add_wanted(scenario, item)
    elif item.word in COMMANDS:
        add_command(scenario, item)
    elif not add_behind(scenario, item):
        need(add_input(scenario, item), f"an unknown word: {item.word}")
        need(not scenario.commands, f"`{item.word}` behind a command")


def check(scenario, lines):
    """Adds as faults what the scenario of these lines and its commands lack."""
    first = lines[0][0]
    if not is_heading(lines[0]):
        scenario.faults.append((first, "no heading before it"))
    if not scenario.commands:
        scenario.faults.append((first, "a scenario without a command"))
    for command in scenario.commands:
        if not command.wanted:
            scenario.faults.append((command.line, "a command without `wants`"))
        elif not command.is_explained():
            scenario.faults.append((command.line, "a difference without a decision, or a decision without a difference"))
        elif command.said("decision") and command.said("decision") not in decisions():
            scenario.faults.append((command.line, f"a decision that isn't in docs/DECISIONS.md: {command.said('decision')}"))


@functools.lru_cache(maxsize=None)
def decisions():
    """The titles of docs/DECISIONS.md."""
    lines = DECISIONS.read_text(encoding="utf-8").splitlines()
    return {line[len("### "):] for line in lines if line.startswith("### ")}


def is_heading(line):
    return line[1].startswith("==")


def is_in_column_1(line):
    return not line[1].startswith((" ", "\t"))


def cut(lines, begins):
    """The lines, cut before each that begins a part."""
    parts = []
    for line in lines:
        if not parts or begins(line):
            parts.append([])
        parts[-1].append(line)
    return parts


def scenario_of(lines):
    """The scenario of these lines, which are those from one heading to the next."""
    scenario = Scenario()
    for (number, text), *block in cut(lines, is_in_column_1):
        word, _, rest = text.partition(" ")
        try:
            add_item(scenario, Item(number, word, rest, block))
        except Fault as fault:
            scenario.faults.append((number, str(fault)))
    check(scenario, lines)
    return scenario


def scenarios_of(text):
    """The scenarios of a text, in their order. Lines that begin with a number sign and those of white space are passed over."""
    lines = [line for line in enumerate(text.split("\n"), 1) if not line[1].startswith("#") and line[1].strip()]
    return [scenario_of(part) for part in cut(lines, is_heading)]
