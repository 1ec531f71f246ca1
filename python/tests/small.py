"""Small packages, indices and calls for the tests of tools/image, run-plan, apt-solver and apt-planner."""
import hashlib
import os
import pathlib
import shutil
import subprocess
import sys
import tempfile

from tests import trials

TOOLS = pathlib.Path(__file__).resolve().parent.parent.parent / "tools"
BUILT = pathlib.Path(os.environ.get("DEBPLAN") or TOOLS.parent / "crates" / "debplan" / "out" / "debplan").resolve()
HAS_PROGRAM = os.access(BUILT, os.X_OK)
WITHOUT_PROGRAM = f"what the program answers, for there is no {BUILT}"
EMPTY = hashlib.sha256(b"").hexdigest()


def call(room, tool, *words, **more):
    """How a tool ended in a folder: its status, and all that it said, with the folder's path as ROOM. Words may be added to the
    environment; `text` is its input."""
    env = {"PATH": os.environ["PATH"], "DEBPLAN": str(BUILT), "ARCH": "amd64", "LC_ALL": "C.UTF-8", **more.pop("env", {})}
    run = subprocess.run([sys.executable, str(TOOLS / tool), *map(str, words)], cwd=room, input=more.pop("text", ""), env=env,
                         stdout=subprocess.PIPE, stderr=subprocess.STDOUT, encoding="utf-8", errors="surrogateescape", check=False)
    return run.returncode, run.stdout.replace(str(room), "ROOM")


def differs(what, found, wanted):
    """Why a call didn't end as it is wanted, with the status and the text, in which .. stands for anything; None where it did."""
    status, text = found
    if status == wanted[0] and trials.is_as(wanted[1], text) and "Traceback" not in text:
        return None
    return f"{what} ends so, and not {wanted}:\n{status}, {text}"


def write(room, texts):
    """Writes files by their names, each a text or bytes."""
    for name, text in texts.items():
        (room / name).parent.mkdir(parents=True, exist_ok=True)
        (room / name).write_bytes(text if isinstance(text, bytes) else text.encode("utf-8"))


def text_in(path):
    """The text of a file; None where there is none."""
    return path.read_text(encoding="utf-8") if path.is_file() else None


def is_root():
    return os.geteuid() == 0


def sum_of(data, kind="sha256"):
    return hashlib.new(kind, data).hexdigest()


# Packages


def make_deb(folder, fields, files=(), scripts=()):
    """Makes the .deb file of a package in a folder, and returns its stanza. Files are by their paths bytes, a link `-> TARGET`, or None
    of a folder."""
    with tempfile.TemporaryDirectory() as room:
        tree = pathlib.Path(room, "tree")
        write(tree, {"DEBIAN/control": "".join(f"{key}: {value}\n" for key, value in
                                               {**fields, "Maintainer": "A <a@example.org>", "Description": "small"}.items())})
        for name, script in dict(scripts).items():
            write(tree, {f"DEBIAN/{name}": f"#!/bin/sh\n{script}\n"})
            (tree / "DEBIAN" / name).chmod(0o755)
        for path, data in dict(files).items():
            put(tree / path, data)
        tree.chmod(0o755)
        (tree / "DEBIAN").chmod(0o755)
        file = folder / f"{fields['Package']}_{fields['Version']}_{fields['Architecture']}.deb"
        subprocess.run(["dpkg-deb", "--root-owner-group", "-Znone", "--build", str(tree), str(file)], check=True,
                       stdout=subprocess.DEVNULL, stderr=subprocess.DEVNULL)
    data = file.read_bytes()
    return {**fields, "Filename": f"pool/{file.name}", "Size": str(len(data)), "SHA256": sum_of(data)}


def put(path, data):
    """Puts a file, a link or a folder into the tree of a package."""
    path.parent.mkdir(parents=True, exist_ok=True)
    if data is None:
        path.mkdir(exist_ok=True)
    elif isinstance(data, str):
        path.symlink_to(data.removeprefix("-> "))
    else:
        path.write_bytes(data)
        path.chmod(0o755)


def text_of(*stanzas):
    """An index of some stanzas."""
    return "".join("".join(f"{key}: {value}\n" for key, value in fields.items()) + "\n" for fields in stanzas)


def inputs_of(room, folder, stanzas, goals, plan):
    """Writes a folder of inputs for a plan from nothing."""
    write(room, {f"{folder}/index-1.Packages": text_of(*stanzas), f"{folder}/status": "",
                 f"{folder}/sources": f"File: {room / folder}/index-1.Packages\nURI: file:{room}\nDistribution: s\nComponent: main\n",
                 f"{folder}/request": goals, f"{folder}/plan": plan})


# Programs of this machine


def copies_of(*programs):
    """The files of these programs of this machine and of the libraries that they need, by the paths that they have in a merged /usr;
    None where one is missing."""
    found = {}
    for name in programs:
        path = shutil.which(name, path="/usr/sbin:/usr/bin:/sbin:/bin")
        if not path:
            return None
        found[place_of(path)] = pathlib.Path(path).read_bytes()
        said = subprocess.run(["ldd", path], stdout=subprocess.PIPE, stderr=subprocess.DEVNULL, encoding="utf-8", check=False).stdout
        libraries = [word for line in said.splitlines() for word in line.split() if word.startswith("/")]
        found.update({place_of(it): pathlib.Path(it).read_bytes() for it in libraries})
    return found


def place_of(path):
    """Where a program or a library stands in a merged /usr."""
    return "usr/" + path.lstrip("/").removeprefix("usr/")
