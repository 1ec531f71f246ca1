#!/usr/bin/env python3
"""apt_candidates.py FILE..: asks `apt-cache policy` for the candidates in files of scenarios (scenarios/*.txt)
whose `candidate` says how apt answers, and compares its answers with these: `apt agrees` is debplan's own answer, and
another answer names the decision in docs/DECISIONS.md that says why. Other commands are passed over. It prints each
difference and the counts, and exits with 1 where there is one. apt reads files of a temporary folder alone, and
downloads nothing."""

import os
import re
import subprocess
import sys
import tempfile

from scenarios import commands_in, texts_of

# The keys that apt reads in a Release file, and those that it takes from the address of an index.
RELEASE_FIELDS = ("Suite", "Codename", "Version", "Origin", "Label", "NotAutomatic", "ButAutomaticUpgrades")
ADDRESS_FIELDS = ("Component", "Host")
FOLDERS = ("etc/apt.conf.d", "etc/preferences.d", "etc/sources.list.d", "lists/partial", "cache/archives/partial")
CONFIGURATION = """Dir "{root}";
Dir::State "{root}";
Dir::State::status "{root}/status";
Dir::State::Lists "{root}/lists";
Dir::Cache "{root}/cache";
Dir::Etc "{root}/etc";
APT::Architecture "amd64";
APT::Architectures {{ "amd64"; }};
APT::Default-Release "{target}";
"""


def fields_of(stanza):
    """The fields of a stanza of the sources, each of one line; comments are none."""
    lines = [line for line in stanza.split("\n") if line and not line.startswith("#")]
    return {name: value.strip(" \t") for name, _, value in (line.partition(":") for line in lines)}


def write(root, path, text):
    with open(os.path.join(root, path), "w", encoding="utf-8") as file:
        file.write(text)


def list_name(address):
    """The name of the file in which apt keeps what stood at this address."""
    access, _, rest = address.partition(":")
    return (rest[2:] if access == "http" else rest).replace("/", "_")


def add_index(root, number, fields, packages):
    """Writes the lists of an index, which is an archive of its own, and answers its line of sources.list. An index
    without a host is in a folder, and one without a component is flat: so apt has no host and no component either."""
    unknown = set(fields) - {"File", "Explanation", *RELEASE_FIELDS, *ADDRESS_FIELDS}
    if unknown:
        sys.exit(f"apt_candidates.py: apt reads no {', '.join(sorted(unknown))}")
    host, component = fields.get("Host"), fields.get("Component")
    archive = f"http://{host}/archive{number}" if host else f"file:/archive{number}"
    if component:
        place, listed, line = f"{archive}/dists/dist", f"{component}/binary-amd64/Packages", f"dist {component}"
    else:
        place, listed, line = f"{archive}/.", "Packages", "./"
    release = "".join(f"{name}: {fields[name]}\n" for name in RELEASE_FIELDS if name in fields)
    write(root, f"lists/{list_name(place)}_Release", release or "Description: no keys\n")
    write(root, f"lists/{list_name(place)}_{listed.replace('/', '_')}", packages)
    return f"deb [trusted=yes] {archive} {line}\n"


def add_files(root, scenario):
    """Writes what apt reads: its configuration, the status file, the preferences and the lists of the indices."""
    for folder in FOLDERS:
        os.makedirs(os.path.join(root, folder))
    texts = texts_of(scenario)
    write(root, "apt.conf", CONFIGURATION.format(root=root, target=scenario.options.get("target", "")))
    write(root, "status", texts["status"])
    write(root, "etc/preferences", texts.get("preferences", ""))
    stanzas = [fields_of(stanza) for stanza in texts["sources"].split("\n\n") if stanza]
    lines = [add_index(root, number, fields, texts[fields["File"]]) for number, fields in enumerate(stanzas, 1)]
    write(root, "etc/sources.list", "".join(lines))


def answer_in(name, printed):
    """The candidate and its priority, out of what `apt-cache policy` prints of the name: the version table has a line
    for each version, which begins in the sixth column, and below it lines for the places that it comes from."""
    heads = [line for line in printed.splitlines() if line and line[0] != " "]
    if not heads:
        return f"{name} none"
    if heads != [f"{name}:"]:
        return f"{name}: {' '.join(heads)}"
    candidate = re.search(r"^  Candidate: (\S+)$", printed, re.MULTILINE)[1]
    if candidate == "(none)":
        return f"{name} none"
    versions = re.findall(r"^(?:     | \*\*\* )(\S+) (-?\d+)", printed, re.MULTILINE)
    priorities = sorted({priority for version, priority in versions if version == candidate})
    return f"{name} {candidate} {' or '.join(priorities)}"


def wanted_of(command):
    """apt's answer, as the command says it."""
    answer = command.said("apt")
    return command.answer().rstrip("\n") if answer == "agrees" else answer


def ask_apt(scenario, name):
    """apt's answer to the question for a name, or what it complains of."""
    with tempfile.TemporaryDirectory() as root:
        add_files(root, scenario)
        environment = {"PATH": os.environ["PATH"], "LC_ALL": "C", "APT_CONFIG": os.path.join(root, "apt.conf")}
        command = ["apt-cache", "policy", name]
        run = subprocess.run(command, env=environment, capture_output=True, text=True, check=False)
    complaints = [line for line in run.stderr.splitlines() if line != f"N: Unable to locate package {name}"]
    if complaints or run.returncode != 0:
        return f"{name}: {' '.join(complaints)}"
    return answer_in(name, run.stdout)


def main():
    if len(sys.argv) < 2:
        sys.exit("usage: apt_candidates.py FILE..")
    asked = commands_in(sys.argv[1:], "apt")
    differences = 0
    for place, scenario, command in asked:
        answer = ask_apt(scenario, command.rest)
        if answer != wanted_of(command):
            differences += 1
            print(f"{place}: {scenario.heading}")
            print(f"    apt: {answer}")
    print(f"apt {len(asked)} candidates, {differences} differences")
    sys.exit(1 if differences or not asked else 0)


if __name__ == "__main__":
    main()
