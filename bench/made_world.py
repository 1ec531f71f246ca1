"""A made world for `apply`: small packages in one index, none of which is installed, and a request for all of them. What stands
in the journal and in the output is worked out here by docs/FORMATS.md, and by nothing of the program."""

import os
import pathlib
import subprocess
import sys

sys.dont_write_bytecode = True
sys.path.insert(0, str(pathlib.Path(__file__).resolve().parent.parent / "dev"))
from journal_bytes import payloads_of  # noqa: E402

LEFT_OUT = ("Filename", "Size", "SHA256")


def stanza_of(number):
    """The fields of a package; two of three depend on the one before."""
    fields = [("Package", f"p{number:05}"), ("Version", f"1.{number}"), ("Architecture", "all")]
    if number % 3:
        fields.append(("Depends", f"p{number - 1:05} (>= 1)"))
    file = [("Filename", f"pool/p{number:05}.deb"), ("Size", "10"), ("SHA256", "0" * 64)]
    return [*fields, *file, ("Description", "made\n to be installed")]


def spelled(fields):
    return "".join(f"{name}: {value}\n" for name, value in fields) + "\n"


def installed(fields):
    """The stanza of the status file that a package has once it is installed."""
    first, *rest = [it for it in fields if it[0] not in LEFT_OUT]
    return spelled([first, ("Status", "install ok installed"), *rest])


class World:
    """The inputs of so many packages in a folder, and the program over them."""

    def __init__(self, program, folder, size):
        self.program, self.folder, self.size = os.path.abspath(program), pathlib.Path(folder), size
        packages = [stanza_of(number) for number in range(size)]
        self.write("status", "")
        self.write("sources", "File: index\n")
        self.write("index", "".join(map(spelled, packages)))
        self.write("request", "".join(f"install {fields[0][1]}\n" for fields in packages))
        self.installed = {fields[0][1]: installed(fields) for fields in packages}
        self.write("plan", self.said("solve").decode())

    def write(self, name, text):
        (self.folder / name).write_text(text, encoding="utf-8")

    def words(self, command, *rest):
        options = [it for name in ("status", "sources", "request") for it in (f"--{name}", name)]
        return [self.program, command, "--arch", "amd64", *options, *rest]

    def said(self, command, *rest):
        """What the program prints; another exit status than 0 ends the tool."""
        run = subprocess.run(self.words(command, *rest), cwd=self.folder, stdout=subprocess.PIPE, stderr=subprocess.PIPE, check=False)
        if run.returncode:
            sys.exit(f"{command} ended with status {run.returncode}: {run.stderr.decode('utf-8', 'replace').strip()}")
        return run.stdout

    def apply_words(self, journal="journal", output="output"):
        return self.words("apply", "--journal", str(journal), "--output", str(output), "plan")

    def steps(self):
        """The number of steps of the plan."""
        return len(self.payloads())

    def payloads(self):
        """What the journal records of each step."""
        return payloads_of((self.folder / "plan").read_bytes(), [(self.folder / "index").read_bytes()])

    def output(self):
        """The status file at the end: the packages in the order of their unpacking."""
        names = [payload.split(b" ")[1].decode() for payload in self.payloads() if payload.startswith(b"unpack ")]
        return "".join(self.installed[name] for name in names).encode()
