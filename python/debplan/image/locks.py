"""The lock file of an image, and the folder of inputs that is opened from it."""
import os
import pathlib
import re

from debplan import control, disk
from debplan.image import debs
from debplan.image.roots import unpacked_by
from debplan.machine import suites
from debplan.machine.collect import LEFT_OUT, UNMATCHED_PINS
from debplan.machine.inputs import Inputs, WITHOUT_PINS
from debplan.tool import Failure

# The lock file


def folded(text):
    """A text as the value of a field: each line behind a space, an empty one as a dot."""
    return "".join(f"\n {line or '.'}" for line in text.splitlines())


def unfolded(value):
    return "".join(f"{'' if line == ' .' else line[1:]}\n" for line in value.split("\n")[1:])


def read(path):
    return path.read_text(encoding="utf-8", errors="surrogateescape")


def goals_of(request):
    """The lines of a request that count."""
    return "".join(f"{line.strip()}\n" for line in request.splitlines() if line.strip())


def head_of(inputs):
    """The first stanza of the lock file."""
    preferences = read(inputs.path("preferences")) if inputs.path("preferences").is_file() else ""
    head = {"Lock": "2", "Architecture": inputs.arch, "Status-SHA256": disk.sha256_of(inputs.path("status")),
            "Target": inputs.target, "Preferences": folded(preferences),
            "Request": folded(goals_of(read(inputs.path("request")))), "Plan": folded(read(inputs.path("plan")))}
    return {key: value for key, value in head.items() if value}


def by_index(inputs, located):
    """The text of each index: its keys, and then the stanzas of the packages that are of it, by name."""
    for number, keys in enumerate(inputs.sources(), 1):
        yield control.text_of({"Index": str(number), **{key: value for key, value in keys.items() if key != "File"}})
        yield from (control.text_of(fields) for _, (fields, of) in sorted(located.items()) if of["File"] == keys["File"])


def lock(options):
    """Writes the lock file."""
    inputs = Inputs(options.folder, target=options.target, needed=("status", "sources", "request", "plan"))
    if inputs.lacks_pins(options.pins_left_out):
        return WITHOUT_PINS
    if inputs.target:
        suites.check_target(inputs, inputs.target)
    run = inputs.asks("check-plan", "plan")
    if run.returncode:
        raise Failure(f"the plan isn't good\n{inputs.verdict(run)}")
    located = inputs.located(unpacked_by(inputs))
    for fields, _ in located.values():
        debs.sum_of(fields)
    disk.write_text(options.file, control.text_of(head_of(inputs)) + "".join(by_index(inputs, located)))
    print(f"{options.file}: {len(located)} packages, {len(inputs.steps())} steps")
    for place in sorted({keys.get("URI", "") for _, keys in located.values()}):
        print(f"from {place}" if place else "some are of an index without a URI, and only apt's lists say where they are")
    return 0


def check_status(folder, wanted):
    """The start has to be that of the lock file; an empty one is written."""
    path = folder / "status"
    if not os.path.lexists(path):
        disk.write_text(path, "")
    if disk.sha256_of(path) != wanted:
        raise Failure(f"{path} isn't the status file that the plan begins with: its SHA256 has to be {wanted}")


def write_indices(folder, stanzas):
    """Writes the indices of a lock file and the sources file, which has for each the keys that stand before its packages."""
    sources = []
    for fields in stanzas:
        if "Index" in fields or not sources:
            file = folder.resolve() / f"index-{fields.pop('Index', '1')}.Packages"
            sources.append(({"File": str(file), **({} if "Package" in fields else fields)}, []))
        if "Package" in fields:
            sources[-1][1].append(fields)
    for keys, packages in sources:
        disk.write_text(keys["File"], "".join(map(control.text_of, packages)))
    disk.write_text(folder / "sources", "\n".join(control.text_of(keys).rstrip("\n") + "\n" for keys, _ in sources))


def check_indices(file, stanzas):
    """Ends where a stanza of a lock file says into which file it is to be written, or an index has no number of its own."""
    if any("File" in fields for fields in stanzas):
        raise Failure(f"{file} has a field File: a lock file names no files")
    known = set()
    for number in (fields["Index"] for fields in stanzas if "Index" in fields):
        if not re.fullmatch(r"[1-9][0-9]{0,3}", number, re.ASCII) or number in known:
            raise Failure(f"{file} has the Index '{number}': an index has a number, and each its own")
        known.add(number)


def locked_in(file):
    """The first stanza of a lock file, and the others."""
    head, *stanzas = list(control.stanzas_in(file)) or [{}]
    if head.get("Lock") not in ("1", "2"):
        raise Failure(f"{file} is no lock file of version 1 or 2")
    missing = [name for name in ("Architecture", "Status-SHA256", "Request", "Plan") if name not in head]
    if missing:
        raise Failure(f"{file} has no {missing[0]} in its first stanza")
    check_indices(file, [head, *stanzas])
    return head, stanzas


def unlock(options):
    """Writes the folder from the lock file, and compares."""
    head, stanzas = locked_in(options.file)
    folder = pathlib.Path(options.folder)
    folder.mkdir(parents=True, exist_ok=True)
    check_status(folder, head["Status-SHA256"])
    for name in ("Request", "Plan", "Preferences"):
        disk.write_text(folder / name.lower(), unfolded(head.get(name, "")))
    for name in (LEFT_OUT, UNMATCHED_PINS, "collected"):
        if os.path.lexists(folder / name):
            (folder / name).unlink()
    write_indices(folder, stanzas)
    return compared(Inputs(folder, arch=head["Architecture"], target=head.get("Target")))


def compared(inputs):
    """Has the plan judged and found again, and returns the exit status."""
    judged, found = inputs.asks("check-plan", "plan"), inputs.asks("solve")
    print(f"{inputs.path('plan')}: {len(inputs.steps())} steps\n{inputs.verdict(judged)}")
    same = found.stdout == read(inputs.path("plan"))
    print(f"debplan solve: {'the same plan, byte for byte' if same else 'another plan'}")
    if inputs.target:
        print(f"the plan goes by --target {inputs.target}, which run-plan takes too")
    return 0 if judged.returncode == 0 and same else 1
