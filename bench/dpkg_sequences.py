#!/usr/bin/env python3
"""dpkg_sequences.py FILE..: has dpkg carry out the steps of the plans in files of scenarios (scenarios/*.txt)
whose `check-plan` says how dpkg answers, and compares its answers with these. Of a scenario it reads the status file,
the indices, and of the command the steps, dpkg's answer and what dpkg leaves. Other commands are passed over. It prints
each difference and the counts, and exits with 1 where there is one. dpkg works in a temporary folder alone, on packages
that dpkg-deb makes of the indices there. It has to be run by root."""

import os
import subprocess
import sys
import tempfile

from scenarios import commands_in, texts_of

FOLDERS = ("info", "updates", "triggers")
ENVIRONMENT = {"PATH": "/usr/sbin:/usr/bin:/sbin:/bin", "LC_ALL": "C"}
# Without waiting for the disk.
DPKG = ("dpkg", "--force-unsafe-io")
# What dpkg-deb asks for and no rule reads.
BESIDES = "Maintainer: nobody <nobody@example.org>\nDescription: made up\n"


def stanzas_in(text):
    """The stanzas of a text, each as its fields; what goes on in further lines keeps its newlines."""
    stanzas = []
    for stanza in text.split("\n\n"):
        fields = {}
        for line in filter(None, stanza.split("\n")):
            if line[0] == " ":
                fields[name] += "\n" + line
            else:
                name, _, value = line.partition(":")
                fields[name] = value.strip(" ")
        stanzas.append(fields)
    return [fields for fields in stanzas if fields]


def write(root, path, text):
    place = os.path.join(root, path)
    os.makedirs(os.path.dirname(place), exist_ok=True)
    with open(place, "w", encoding="utf-8") as file:
        file.write(text)


def conffiles_of(fields):
    """The paths of the configuration files that the field Conffiles lists."""
    return [line.split()[0] for line in fields.get("Conffiles", "").split("\n") if line]


def add_start(root, status):
    """Writes the database of dpkg with this status file, and the configuration files of the packages in it."""
    for folder in FOLDERS:
        os.makedirs(os.path.join(root, "var/lib/dpkg", folder))
    write(root, "var/lib/dpkg/status", status)
    write(root, "var/lib/dpkg/available", "")
    for fields in stanzas_in(status):
        paths = conffiles_of(fields)
        write(root, f"var/lib/dpkg/info/{fields['Package']}.list", "\n".join(["/.", *paths, ""]))
        for path in paths:
            write(root, path[1:], "")


def add_package(folder, fields):
    """Has dpkg-deb make the package of a stanza, with the configuration files that the stanza lists."""
    name = f"{fields['Package']}_{fields['Version']}"
    control = "".join(f"{field}: {value}\n" for field, value in fields.items() if field != "Conffiles")
    write(folder, f"{name}/DEBIAN/control", control + BESIDES)
    paths = conffiles_of(fields)
    write(folder, f"{name}/DEBIAN/conffiles", "".join(path + "\n" for path in paths))
    for path in paths:
        write(folder, name + path, "")
    command = ["dpkg-deb", "--build", "-Znone", name, f"{name}.deb"]
    subprocess.run(command, cwd=folder, env=ENVIRONMENT, capture_output=True, check=True)


def words_of(step, deconfigures):
    """The words that have dpkg carry out a step. It deconfigures on the way to an unpacking alone, where it may."""
    action, *names = step.split(" ")
    if action == "unpack":
        return ["--auto-deconfigure"] * deconfigures + ["--unpack", f"{names[0]}_{names[1]}.deb"]
    return [f"--{action}", *names]


def answer_to(root, folder, steps):
    """Whether dpkg carried out all the steps, or the first that it refused. To deconfigure is no command of dpkg, so
    it is left to the next step."""
    deconfigures = False
    for number, step in enumerate(steps, 1):
        if step.startswith("deconfigure "):
            deconfigures = True
            continue
        command = [*DPKG, f"--root={root}", f"--log={root}/log", *words_of(step, deconfigures)]
        status = subprocess.run(command, cwd=folder, env=ENVIRONMENT, capture_output=True, check=False).returncode
        if status == 1:
            return f"no step {number}"
        if status != 0:
            sys.exit(f"dpkg_sequences.py: dpkg ended with status {status} at {step}")
        deconfigures = False
    return "yes"


def left_in(root):
    """The names that dpkg has in its status file, each with its state, its version and its config version."""
    with open(os.path.join(root, "var/lib/dpkg/status"), encoding="utf-8") as status:
        stanzas = stanzas_in(status.read())
    left = []
    for fields in stanzas:
        words = [fields["Package"], fields["Status"].split()[2], fields.get("Version", "")]
        if "Config-Version" in fields:
            words += ["config", fields["Config-Version"]]
        if words[1] != "not-installed":
            left.append(" ".join(filter(None, words)))
    return ", ".join(left) or "nothing"


def ask_dpkg(scenario, command):
    """dpkg's answer to the steps of a command, and what it leaves."""
    with tempfile.TemporaryDirectory() as folder:
        root = os.path.join(folder, "root")
        texts = texts_of(scenario)
        add_start(root, texts["status"])
        for name in scenario.index_names():
            for fields in stanzas_in(texts[name]):
                add_package(folder, fields)
        answer = answer_to(root, folder, command.text.decode().splitlines()[1:])
        return [answer, left_in(root)]


def main():
    if len(sys.argv) < 2:
        sys.exit("usage: dpkg_sequences.py FILE..")
    asked = commands_in(sys.argv[1:], "dpkg")
    differences = 0
    for place, scenario, command in asked:
        answer = ask_dpkg(scenario, command)
        if answer != [command.said("dpkg"), command.said("dpkg leaves")]:
            differences += 1
            print(f"{place}: {scenario.heading}")
            print(f"    dpkg: {'; '.join(answer)}")
    print(f"dpkg {len(asked)} plans, {differences} differences")
    sys.exit(1 if differences or not asked else 0)


if __name__ == "__main__":
    main()
