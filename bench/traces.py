"""The calls that a process makes on a file, seen by strace, and what a crash between them may leave of the file by docs/FORMATS.md
("What is assumed of the disk")."""

import collections
import pathlib
import re
import shutil
import subprocess
import sys
import time

sys.dont_write_bytecode = True
sys.path.insert(0, str(pathlib.Path(__file__).resolve().parent.parent / "dev"))
from journal_bytes import is_unmade  # noqa: E402

# A write has its bytes, a cut the new length as its place.
Call = collections.namedtuple("Call", "kind at bytes", defaults=(0, b""))
LINE = re.compile(r"(openat|pwrite64|ftruncate|fsync)\((.*)\) += (-?[0-9]+)")
# What becomes of a write that no sync has put on the disk: lost, kept, half of it, or other bytes, also past the old end.
FATES = ("lost", "kept", "half", b"\0", b"\1", b"\xff")
BEYOND = 7


def is_there():
    return shutil.which("strace") is not None


def start(words, folder, log):
    """Starts a process whose calls strace writes into a file, and waits for the first of them. The process is its own, so that a
    signal reaches it and not strace."""
    watched = ["strace", "-D", "-q", "-xx", "-s", "100000000", "-e", "trace=openat,pwrite64,ftruncate,fsync", "-o", str(log), *words]
    process = subprocess.Popen(watched, cwd=folder, stdin=subprocess.DEVNULL, stdout=subprocess.PIPE, stderr=subprocess.PIPE)
    wait_for(lambda: log.exists() and log.stat().st_size > 0)
    return process


def wait_for(holds):
    """Waits until something holds, which is a matter of moments."""
    end = time.monotonic() + 20
    while not holds():
        if time.monotonic() > end:
            sys.exit("strace: it didn't write what it saw")
        time.sleep(0.0002)


def whole_log(log):
    """The lines of the file, once strace has written that the process is over."""
    wait_for(lambda: re.search(rb"(^|\n)\+\+\+ [^\n]*\n$", end_of(log)))
    return log.read_text(encoding="ascii").split("\n")


def end_of(log):
    with open(log, "rb") as file:
        file.seek(max(0, log.stat().st_size - 100))
        return file.read()


def text_in(word):
    return bytes.fromhex(word.strip('"').replace("\\x", ""))


def calls_in(lines, name):
    """The calls that succeeded on the file that was opened by this name for reading and writing."""
    found, number = [], None
    for call, words, result in (match.groups() for match in map(LINE.match, lines) if match):
        words = words.split(", ")
        if call == "openat":
            number = result if text_in(words[1]) == name.encode() and "O_RDWR" in words[2] else number
        elif words[0] == number and int(result) >= 0:
            found.append({"fsync": lambda: Call("sync"), "ftruncate": lambda: Call("cut", int(words[1])),
                          "pwrite64": lambda: Call("write", int(words[3]), text_in(words[1])[:int(result)])}[call]())
    return found


def acknowledged(calls):
    """Whether a journal was created, and how many gates were opened, as far as a sync has put it on the disk."""
    created = gates = 0
    waiting = []
    for call in calls:
        if call.kind == "sync":
            created, gates = created + waiting.count("head"), gates + waiting.count("gate")
            waiting = []
        elif call.kind == "write":
            waiting.append(kind_of(call))
    return created > 0, gates


def kind_of(call):
    """What a write on a journal writes. The first bytes are written last, and before that others in their place."""
    if call.at == 0:
        return "begun" if is_unmade(call.bytes) else "head"
    return "gate" if call.bytes == b"\1" else "record"


# Crashes


def put(file, at, data):
    return file[:at].ljust(at, b"\0") + data + file[at + len(data):]


def after(file, call, fate):
    """The file after a call of which this came."""
    if call.kind == "sync" or fate == "lost":
        return file
    if call.kind == "cut":
        end = call.at if fate == "kept" else (call.at + max(call.at, len(file))) // 2
        return file[:end]
    if isinstance(fate, bytes):
        reaches_end = call.at + len(call.bytes) >= len(file)
        return put(file, call.at, fate * (len(call.bytes) + (BEYOND if reaches_end else 0)))
    return put(file, call.at, call.bytes if fate == "kept" else call.bytes[:len(call.bytes) // 2])


def crashes(file, calls, chance):
    """Yields of each moment what crashes then may leave of a file that was on the disk before these calls, together with the
    calls until then."""
    synced = 0
    for moment in range(len(calls) + 1):
        if moment and calls[moment - 1].kind == "sync":
            for call in calls[synced:moment]:
                file = after(file, call, "kept")
            synced = moment
        waiting = calls[synced:moment]
        fates = [[fate] * len(waiting) for fate in FATES] + [[chance.choice(FATES) for _ in waiting]]
        for left in dict.fromkeys(left_by(file, waiting, some) for some in fates):
            yield left, calls[:moment]


def left_by(file, waiting, fates):
    for call, fate in zip(waiting, fates):
        file = after(file, call, fate)
    return file
