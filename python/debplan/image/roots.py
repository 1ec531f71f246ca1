"""The request and the root of an image, and what is done behind its plan."""
import os
import pathlib
import re
import stat
import subprocess
import tarfile

import debplan
from debplan import control, disk, tool
from debplan.apt import sources as apt_sources
from debplan.image import debs
from debplan.machine import inside, recommending
from debplan.machine.inputs import Inputs, WITHOUT_PINS, ending, without_unmatched
from debplan.machine.system import Machine
from debplan.tool import Failure

MERGED = ("bin", "sbin", "lib", "lib64")
DEVICES = {"null": (1, 3), "zero": (1, 5), "full": (1, 7), "random": (1, 8), "urandom": (1, 9), "tty": (5, 0)}
LEFT = """left to do, for none of it is in the plan of the packages:
  a name and an address: etc/hostname, etc/hosts, etc/resolv.conf, the network
  who may log in: users, passwords, keys of ssh; the locale and the time zone
  the keys of archives whose keyring isn't a package of the plan: etc/apt/keyrings
  what starts the machine: a kernel, a boot loader, etc/fstab, if it isn't to be a container
  what every copy has to have of its own: etc/machine-id, and the host keys of ssh"""
# The sources of apt in a root, and those of them that are written.
PARTS = "etc/apt/sources.list.d"
OWN_SOURCES = f"{PARTS}/debplan.sources"
# What names an archive in a sources file: its URI, its distribution and its component, without blanks, brackets or options.
NAMING = {"URI": re.compile(r"[a-z][a-z0-9+.-]*:[^\s\[\]]+"), "Distribution": re.compile(r"[A-Za-z0-9./~_+-]+"),
          "Component": re.compile(r"[A-Za-z0-9./~_+-]*")}
LINKS = {"fd": "/proc/self/fd", "stdin": "/proc/self/fd/0", "stdout": "/proc/self/fd/1", "stderr": "/proc/self/fd/2"}


# The request


def write_request(options):
    """Writes the request."""
    inputs = Inputs(options.folder, target=options.target)
    if options.recommends and inputs.lacks_pins(options.pins_left_out):
        return WITHOUT_PINS
    essential, others = set(), set()
    for fields in inputs.of_index():
        if fields.get("Essential") == "yes":
            essential.add(fields["Package"])
        elif fields.get("Priority") in options.priority:
            others.add(fields["Package"])
    names = [*sorted(essential), *sorted(others - essential), *options.names]
    text = "".join(f"install {name}\n" for name in dict.fromkeys(names))
    found = with_recommended(inputs, text) if options.recommends else None
    disk.write_text(inputs.path("request"), found.request if found else text)
    print(f"{inputs.path('request')}: {len(essential)} essential packages, {len(set(names)) - len(essential)} others"
          + (f", {len(found.came)} recommended" if found else ""))
    print("".join(f"{line}\n" for line in (recommending.lines_on(recommending.members_of(found)) if found else ())), end="")
    return 0


def with_recommended(inputs, text):
    """A plan of the request that has what the new packages of its plan recommend too."""
    with inputs.resolver() as resolver, ending("without Recommends there is no plan:\n"):
        answer = resolver.solve(text, recommends=True)
    if isinstance(answer, debplan.Plan):
        return answer
    said = without_unmatched(answer.reasons) or [answer.text.strip()]
    raise Failure("\n".join(["without Recommends there is no plan:", *said]), 1 if isinstance(answer, debplan.Refutation) else 2)


# The root


def unpacked_by(inputs):
    """The name and the version of each package that the plan unpacks."""
    return {(step[1], step[2]) for step in inputs.steps() if step[0] == "unpack"}


def make_devices(root):
    """The devices that maintainer scripts use."""
    (root / "dev").mkdir()
    for name, (major, minor) in DEVICES.items():
        os.mknod(root / "dev" / name, stat.S_IFCHR | 0o666, os.makedev(major, minor))
        (root / "dev" / name).chmod(0o666)
    for name, to in LINKS.items():
        (root / "dev" / name).symlink_to(to)


def make_folders(root):
    """The folders of a merged /usr, and an empty database of dpkg."""
    for name in MERGED:
        (root / "usr" / name).mkdir(parents=True)
        (root / name).symlink_to(f"usr/{name}")
    (root / "tmp").mkdir()
    (root / "tmp").chmod(0o1777)
    for name in ("info", "updates"):
        (root / "var/lib/dpkg" / name).mkdir(parents=True)
    for name in ("status", "available"):
        (root / "var/lib/dpkg" / name).touch()


def extract(deb, root):
    """Extracts the files of a package, by a process in the root, so that no link of a package leads out of it."""
    with subprocess.Popen(["dpkg-deb", "--fsys-tarfile", str(deb)], stdout=subprocess.PIPE, stderr=subprocess.PIPE) as data:
        try:
            inside.call(root, put_files, data.stdout)
        except Failure as failure:
            data.stdout.close()
            said = data.stderr.read().decode("utf-8", "replace").strip()
            raise Failure(f"{deb} can't be extracted: {said or failure}") from None
    if data.returncode:
        raise Failure(f"{deb} can't be extracted: dpkg-deb ended with the status {data.returncode}")


def put_files(data):
    """Puts the files of a tar file below this root, with their owners and modes."""
    with tarfile.open(fileobj=data, mode="r|", errorlevel=2) as archive:
        archive.extraction_filter = lambda member, _: member
        archive.extractall("/", making_room(archive), numeric_owner=True)
    while data.read(1 << 16):
        pass


def making_room(members):
    """Yields each of these files where nothing stands in its place. A link to a folder stays where a package has a folder, as that of
    the merged /usr."""
    for member in members:
        path = os.path.join("/", member.name)
        if os.path.lexists(path) and not (member.isdir() and os.path.isdir(path)):
            os.unlink(path)
        yield member


def make_accounts():
    """The first passwd and group of this root: base-passwd takes care of them when it is configured."""
    for name in ("passwd", "group"):
        master, made = pathlib.Path("/usr/share/base-passwd", f"{name}.master"), f"/etc/{name}"
        if master.is_file() and not os.path.lexists(made):
            with open(made, "wb", opener=disk.new_file) as file:
                file.write(master.read_bytes())


def extract_all(options):
    """Makes the root."""
    inputs, root = Inputs(options.folder, needed=("sources", "plan")), pathlib.Path(options.root)
    if inputs.lacks_pins(options.pins_left_out):
        return WITHOUT_PINS
    if root.exists() and any(root.iterdir()):
        raise Failure(f"{root} isn't empty")
    pairs = unpacked_by(inputs)
    files = debs.Debs(options.debs, inputs.located(pairs))
    lacking = pairs - set(files.offered)
    if lacking:
        raise Failure(f"the indices of {inputs.folder} have no {' '.join(min(lacking))}")
    if options.download:
        files.download()
    files.verify()
    root.mkdir(parents=True, exist_ok=True)
    make_folders(root)
    make_devices(root)
    for pair in sorted(pairs):
        extract(files.file(pair), root)
    inside.call(root, make_accounts)
    print(f"{root}: {len(pairs)} packages extracted, none unpacked by dpkg")
    return 0


# What is behind the plan


def archives_of(inputs):
    """The archives and distributions by which the packages came, each with its components."""
    found = {}
    for keys in inputs.sources():
        place = keys.get("URI", ""), keys.get("Distribution", "")
        if all(place):
            found.setdefault(place, []).append(keys.get("Component", ""))
            check_words(inputs, keys)
    return {place: list(dict.fromkeys(filter(None, components))) for place, components in found.items()}


def check_words(inputs, keys):
    """Ends where what names an archive is more than its name, as an option of apt."""
    for name, form in NAMING.items():
        if not form.fullmatch(keys.get(name, "")):
            raise Failure(f"{inputs.path('sources')}: {name} is '{keys[name]}', which names no archive")


def keys_of_archives(arch):
    """By which keys the sources of this machine say that archives are signed, by URI and distribution."""
    return {(apt_sources.without_words(it.uri), it.suite): it.signed_by for it in apt_sources.sources_of(Machine(), arch) if it.signed_by}


def sources_text(archives, keys):
    """The sources of apt for some archives (sources.list(5), "DEB822-STYLE FORMAT")."""
    stanzas = []
    for (uri, suite), components in archives.items():
        fields = {"Types": "deb", "URIs": uri, "Suites": suite, "Components": " ".join(components),
                  "Signed-By": keys.get((uri.rstrip("/") + "/", suite))}
        stanzas.append(control.text_of({name: value for name, value in fields.items() if value}))
    return "".join(stanzas).removesuffix("\n")


def write_sources(inputs, root):
    """Writes the sources of apt in the root, if it has apt and none yet."""
    archives = archives_of(inputs)
    if not inside.has(root, PARTS):
        print(f"{root / PARTS} isn't there: no sources of apt were written")
        return
    with inside.folder(root, PARTS) as folder:
        others = [f"{PARTS}/{it}" for it in sorted(os.listdir(folder)) if it.endswith((".list", ".sources"))]
    others += ["etc/apt/sources.list"] if inside.has(root, "etc/apt/sources.list") else []
    if others:
        print(f"{root / others[0]}: is there already, and stays as it is")
    elif not archives:
        print(f"{inputs.path('sources')} has no URI: no sources of apt were written")
    else:
        keys = keys_of_archives(inputs.arch)
        inside.write(root, OWN_SOURCES, sources_text(archives, keys).encode("utf-8", "surrogateescape"))
        print(f"{root / OWN_SOURCES}: {len(archives)} sources of apt")
        tell_keys(root, archives, keys)


def tell_keys(root, archives, keys):
    """Says which keys that the sources name aren't in the root."""
    named = dict.fromkeys(keys.get((uri.rstrip("/") + "/", suite), "") for uri, suite in archives)
    for path in (word for value in named if "\n" not in value for word in value.replace(",", " ").split() if word.startswith("/")):
        if not inside.has(root, path):
            print(f"{root}{path}: is missing, by which an archive is signed")


def run_hooks(hooks, root):
    """Runs the commands, one after the other, each with the root as its first word."""
    for hook in hooks:
        status = subprocess.run(["sh", "-c", hook, "sh", str(root)], stdin=subprocess.DEVNULL, check=False).returncode
        if status:
            raise Failure(f"the hook ended with the status {status}: {hook}")
        print(f"hook: {hook}", flush=True)


def write_tar(root, file):
    """Writes all of the root as a tar file."""
    words = ["tar", "--create", "--file", f"{file}.new", "--directory", str(root), "--numeric-owner", "--xattrs", "--sort=name",
             # (the times of reading and of this call are of no use to anyone, and make each file another one)
             "--pax-option=exthdr.name=%d/PaxHeaders/%f,delete=atime,delete=ctime"]
    epoch = os.environ.get("SOURCE_DATE_EPOCH")
    words += [f"--mtime=@{epoch}", "--clamp-mtime"] if epoch else []
    run = tool.run_of([*words, "."])
    if run.returncode:
        raise Failure(f"{file} can't be written: {tool.last_words(run)}")
    os.replace(f"{file}.new", file)
    print(f"{file}: {os.path.getsize(file)} bytes, SHA256 {disk.sha256_of(file)}")


def finish(options):
    """What is done behind the plan."""
    inputs, root = Inputs(options.folder, needed=("sources",)), pathlib.Path(options.root)
    if not (root / "var/lib/dpkg/status").is_file():
        raise Failure(f"{root} has no status file of dpkg: 'image extract' makes a root, and run-plan carries the plan out in it")
    write_sources(inputs, root)
    run_hooks(options.hook, root.resolve())
    if options.tar:
        write_tar(root, options.tar)
    print(LEFT)
    return 0
