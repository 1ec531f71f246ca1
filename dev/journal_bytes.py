"""Reads and writes the bytes of journals, by the tables of docs/FORMATS.md ("Journal file") and by nothing of the program."""
import collections

FIRST, SECOND = b"DPJRNL01", b"DPJRNL02"
# How a file begins that is being made a journal.
UNMADE = b"DPJRNL00"
CLOSED, OPEN = b"\0", b"\1"
# A journal's version, the architecture that it names, its start, the payloads behind its open gates, and the offset of the
# closed gate behind them.
Journal = collections.namedtuple("Journal", "version arch start payloads gate")


class Refused(Exception):
    """What an opening says of such bytes, as `E21 NotAJournal`."""


def is_unmade(data):
    """Whether no journal was ever made of a file with these bytes: it is empty, or its making was stopped."""
    return data[:8] == UNMADE[:len(data)]


def is_whole(data, end):
    """Refuses what runs past the end of the file within the header or the start."""
    if end > len(data):
        raise Refused("E22 Damaged 16")


def head_of(data):
    """The version, the architecture, the start and the offset of the first gate."""
    if len(data) < 16 or data[:8] not in (FIRST, SECOND):
        raise Refused("E21 NotAJournal")
    length, at, arch = int.from_bytes(data[8:16], "big"), 16, b""
    if data[:8] == SECOND:
        is_whole(data, 18)
        at = 18 + int.from_bytes(data[16:18], "big")
        is_whole(data, at)
        arch = data[18:at]
    is_whole(data, at + length)
    return 1 if data[:8] == FIRST else 2, arch, data[at:at + length], at + length


def record_at(data, gate):
    """The payload behind an open gate, and the offset of the next gate."""
    end = gate + 5 + int.from_bytes(data[gate + 1:gate + 5], "big")
    if len(data) < gate + 5 or end > len(data):
        raise Refused(f"E22 Damaged {gate}")
    return data[gate + 5:end], end


def journal_of(data):
    """The journal that these bytes are. What a payload says isn't looked at."""
    version, arch, start, gate = head_of(data)
    payloads = []
    while data[gate:gate + 1] != CLOSED:
        if gate >= len(data):
            raise Refused(f"E22 Damaged {gate}")
        payload, gate = record_at(data, gate)
        payloads.append(payload)
    return Journal(version, arch, start, payloads, gate)


def head_bytes(arch, start, version=2):
    """The bytes before the first gate."""
    if version == 1:
        return FIRST + len(start).to_bytes(8, "big") + start
    return SECOND + len(start).to_bytes(8, "big") + len(arch).to_bytes(2, "big") + arch + start


def journal_bytes(arch, start, payloads, version=2):
    """The bytes of a journal with these steps done."""
    records = b"".join(OPEN + len(payload).to_bytes(4, "big") + payload for payload in payloads)
    return head_bytes(arch, start, version) + records + CLOSED


def gates_in(data):
    """The offsets of the gates, the closed one last."""
    *_, gate = head_of(data)
    found = [gate]
    while data[gate:gate + 1] != CLOSED:
        _, gate = record_at(data, gate)
        found.append(gate)
    return found


def stanzas_in(text):
    """The stanzas of a control text as their bytes, each from its first line to the end of its last; a newline that is missing is
    added (Policy 5.1)."""
    found, lines = [], []
    for line in [*text.split(b"\n"), b""]:
        if line.strip(b" \t"):
            lines.append(line + b"\n")
        elif lines:
            found.append(b"".join(lines))
            lines = []
    return found


def value_in(stanza, name):
    """The value of a field of one line in a stanza, or None."""
    for line in stanza.split(b"\n"):
        field, colon, value = line.partition(b":")
        if colon and field.lower() == name.lower():
            return value.strip(b" \t")
    return None


def stanzas_by_pair(indices, arch):
    """Of each name and version the earliest stanza of an index that counts for an architecture."""
    found = {}
    for stanza in (it for text in indices for it in stanzas_in(text)):
        if value_in(stanza, b"Architecture") in (b"all", arch):
            found.setdefault((value_in(stanza, b"Package"), value_in(stanza, b"Version")), stanza)
    return found


def steps_in(plan):
    """The lines of a plan's steps; in version 2 a line with their number stands behind them."""
    lines = plan.split(b"\n")[1:-1]
    return lines[:-1] if plan.startswith(b"plan 2\n") else lines


def payloads_of(plan, indices, arch=b"amd64"):
    """The payloads of a plan's steps, where each version is spelled as in the indices: the line of the step, and behind that of
    an unpacking its stanza."""
    stanzas, payloads = stanzas_by_pair(indices, arch), []
    for line in steps_in(plan):
        action, *words = line.split(b" ")
        payloads.append(line + b"\n" + (stanzas.get(tuple(words), b"") if action == b"unpack" else b""))
    return payloads


def text_of_status(text):
    """The text that is written of a status file which no step has touched: an empty line behind each stanza."""
    return b"".join(stanza + b"\n" for stanza in stanzas_in(text))
