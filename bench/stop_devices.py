"""Journals and outputs on devices that can't take them, for stops.py: for each what it is, whose failure has to be told, and a
function that has `apply` meet it and then go on where all is well."""

import contextlib
import os
import pathlib
import subprocess


# File systems


@contextlib.contextmanager
def mounted(room, options):
    """A file system in memory on the folder."""
    subprocess.run(["mount", "-t", "tmpfs", "-o", options, "tmpfs", str(room)], check=True)
    try:
        yield
    finally:
        subprocess.run(["umount", str(room)], check=True)


def on_full(which):
    """The file system of the journal, or of the output, has 4 KiB, 8 KiB and so on, until all fits."""
    def tried(stops, room, wanted, what):
        for pages in range(1, 10_000):
            stops.begin()
            with mounted(room, f"size={4 * pages}k"):
                if on_pages(stops, room, which, wanted, f"{what} {4 * pages} KiB"):
                    return
        stops.need(False, what, "it never fits")
    return tried


def on_pages(stops, room, which, wanted, what):
    """A run on so small a file system, and one after it got more room; whether all fits from the first."""
    place = {which: room / which}
    ended = stops.run(**place)
    fits = ended == stops.done
    stops.need(fits or ended == wanted, what, "ended with", ended)
    left = (room / which).read_bytes() if which == "output" and (room / which).exists() else None
    stops.need(left in (None, stops.whole), what, "left a part of an output")
    stops.need(not list(room.glob("*.debplan-*")), what, "left a file beside")
    subprocess.run(["mount", "-o", "remount,size=64m", str(room)], check=True)
    again = stops.run(**place)
    output = room / "output" if which == "output" else stops.output
    stops.need(again == stops.done and output.read_bytes() == stops.whole, what, "and with more room ended with", again)
    return fits


def on_read_only(which):
    def tried(stops, room, wanted, what):
        with mounted(room, "ro"):
            stops.see_answer(stops.run(**{which: room / which}), wanted, what)
        stops.see_end(what)
    return tried


# What is no file


def in_place_of(which, make):
    """Something that is no file in the place of the journal or of the output."""
    def tried(stops, room, wanted, what):
        make(room / which)
        stops.see_answer(stops.run(**{which: room / which}), wanted, what)
        stops.see_end(what)
    return tried


def in_no_folder(which):
    def tried(stops, room, wanted, what):
        stops.see_answer(stops.run(**{which: room / "nowhere" / which}), wanted, what)
        stops.see_end(what)
    return tried


def make_full_device(path):
    os.mknod(path, 0o020666, os.makedev(1, 7))


def make_null_device(path):
    os.mknod(path, 0o020666, os.makedev(1, 3))


def make_loop(path):
    path.symlink_to(path.name)


def by_nobody(which):
    """A file that the process may not open."""
    def tried(stops, room, wanted, what):
        path = room / which
        path.write_bytes(b"")
        path.chmod(0o600)
        room.chmod(0o755)
        stops.world.folder.chmod(0o777)
        stops.see_answer(stops.run(**{which: path}, user=65534), wanted, what)
        stops.begin()
        stops.see_end(what)
    return tried


def in_blind_folder(which):
    """A folder in which files can be made, and that can't be opened to be brought to the disk."""
    def tried(stops, room, wanted, what):
        folder = room / "blind"
        folder.mkdir()
        folder.chmod(0o333)
        room.chmod(0o755)
        stops.world.folder.chmod(0o777)
        place = {which: folder / which}
        stops.see_answer(stops.run(**place, user=65534), wanted, what)
        stops.need(which == "journal" or not list(folder.iterdir()), what, "left a file")
        folder.chmod(0o777)
        stops.see_answer(stops.run(**place, user=65534), stops.done, f"{what} and open")
    return tried


def over_another_owner(stops, room, _, what):
    """An output whose owner, group and permissions are others than a new file's."""
    path = room / "output"
    path.write_bytes(b"before")
    os.chown(path, 1234, 5678)
    path.chmod(0o640)
    stops.see_answer(stops.run(output=path), stops.done, what)
    found = path.stat()
    stops.need((found.st_uid, found.st_gid, found.st_mode & 0o7777) == (1234, 5678, 0o640), what, "it is of", found)
    stops.need(path.read_bytes() == stops.whole, what, "it isn't whole")


def answer_on_full(stops, room, wanted, what):
    """The line `applied N` can't be written."""
    make_full_device(room / "full")
    with open(room / "full", "wb") as full:
        stops.see_answer(stops.run(stdout=full), wanted, what)
    stops.see_end(what)


DEVICES = [
    ("a journal on a full device", "journal", on_full("journal")),
    ("an output on a full device", "output", on_full("output")),
    ("a journal on a read-only device", "journal", on_read_only("journal")),
    ("an output on a read-only device", "output", on_read_only("output")),
    ("a folder as journal", "journal", in_place_of("journal", pathlib.Path.mkdir)),
    ("a folder as output", "output", in_place_of("output", pathlib.Path.mkdir)),
    ("a journal in a folder that isn't there", "journal", in_no_folder("journal")),
    ("an output in a folder that isn't there", "output", in_no_folder("output")),
    ("a link to itself as journal", "journal", in_place_of("journal", make_loop)),
    ("a link to itself as output", "output", in_place_of("output", make_loop)),
    ("a journal that may not be opened", "journal", by_nobody("journal")),
    ("an output that may not be opened", "output", by_nobody("output")),
    ("a journal in a folder of mode 0333", "journal", in_blind_folder("journal")),
    ("an output in a folder of mode 0333", "output", in_blind_folder("output")),
    ("an output of another owner", "output", over_another_owner),
    ("/dev/null as journal", "journal", in_place_of("journal", make_null_device)),
    ("/dev/full as output", "output", in_place_of("output", make_full_device)),
    ("a pipe as journal", "journal", in_place_of("journal", os.mkfifo)),
    ("/dev/full as standard output", "output", answer_on_full),
]
