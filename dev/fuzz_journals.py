"""Journals for dev/fuzz: how one is made for a plan, how its bytes are changed, and what `apply` has to say of it."""
import re

import mutations
from journal_bytes import (CLOSED, OPEN, Refused, gates_in, head_of, is_unmade, journal_bytes, journal_of, payloads_of, record_at,
                           stanzas_in, text_of_status, value_in)

LENGTHS = (0, 1, 16, 255, 65_535, 65_536, *((1 << power) + more for power in (28, 31, 32, 63, 64) for more in (-1, 0, 1)))
SAID = re.compile(rb"debplan: journal: (E[0-9]+ [A-Za-z]+( [0-9]+)?)\n")


# What a journal has to have


def indices_in(texts):
    """The texts of the indices in the order of the sources, or None where one of them isn't among the texts."""
    paths = [value_in(stanza, b"File") or b"" for stanza in stanzas_in(texts.get("sources", b""))]
    found = [texts.get(path.decode("utf-8", "surrogateescape")) for path in paths]
    return None if None in found else found


def planned(texts, arch):
    """The start and the payloads of a journal in which the plan is done; None where it isn't plain what the steps unpack."""
    indices = indices_in(texts)
    if indices is None or "plan" not in texts or "status" not in texts:
        return None
    payloads = payloads_of(texts["plan"], indices, arch)
    if any(payload.startswith(b"unpack ") and payload.count(b"\n") < 2 for payload in payloads):
        return None
    return text_of_status(texts["status"]), payloads


def journal_for(chance, texts, arch):
    """A journal in which some steps of the plan are done, or none."""
    found = planned(texts, arch)
    if not found or chance.randrange(4) == 0:
        return None
    start, payloads = found
    return journal_bytes(arch, start, payloads[:chance.randrange(len(payloads) + 1)], chance.choice((1, 2, 2, 2)))


# Changes


def of_records(change):
    """A change of the list of records as one of the bytes; other bytes are changed as any text."""
    def changed(chance, data, others):
        try:
            journal = journal_of(data)
        except Refused:
            return chance.choice(mutations.SMALL)(chance, data, others)
        payloads = list(journal.payloads)
        change(chance, payloads, others)
        return journal_bytes(journal.arch, journal.start, payloads, journal.version) + data[journal.gate + 1:]
    changed.__name__ = change.__name__
    return changed


@of_records
def a_record_cut(chance, payloads, _):
    if payloads:
        del payloads[chance.randrange(len(payloads))]


@of_records
def a_record_doubled(chance, payloads, _):
    if payloads:
        payloads.insert(chance.randrange(len(payloads) + 1), chance.choice(payloads))


@of_records
def two_records_exchanged(chance, payloads, _):
    if payloads:
        one, other = chance.randrange(len(payloads)), chance.randrange(len(payloads))
        payloads[one], payloads[other] = payloads[other], payloads[one]


@of_records
def a_payload_changed(chance, payloads, others):
    if payloads:
        at = chance.randrange(len(payloads))
        payloads[at] = chance.choice(mutations.SMALL)(chance, payloads[at], others)


def a_length_put(chance, data, _):
    """A number in the place of a length: that of the start, of the architecture, or of a payload."""
    try:
        gates = [gate + 1 for gate in gates_in(data)]
    except Refused:
        gates = []
    at, size = chance.choice([(8, 8), (16, 2), *((gate, 4) for gate in gates)])
    number = chance.choice((*LENGTHS, len(data), chance.randrange(len(data) + 1))) % (1 << 8 * size)
    return data[:at] + number.to_bytes(size, "big") + data[at + size:]


def a_gate_put(chance, data, _):
    try:
        at = chance.choice(gates_in(data))
    except Refused:
        return data + CLOSED
    return data[:at] + chance.choice((CLOSED, OPEN, b"\x7f", b"\xff", b"")) + data[at + 1:]


def bytes_behind(chance, data, _):
    """Something behind the closed gate, as a write leaves it that wasn't ended."""
    return data + chance.choice((b"\0", b"\1", b"\0\0\0\5purge x\n", b"\xff" * 1000, b"\0" * 100_000))


def another_head(chance, data, _):
    return chance.choice((b"DPJRNL00", b"DPJRNL01", b"DPJRNL02", b"DPJRNL03", b"", b"plan 1\n")) + data[8:]


CHANGES = [a_record_cut, a_record_doubled, two_records_exchanged, a_payload_changed, a_length_put, a_gate_put, bytes_behind, another_head]


def change_of(chance):
    return chance.choice(CHANGES if chance.randrange(2) else mutations.SMALL)


# What has to be said


def records_before(data, gate):
    """The payloads behind open gates from this one on, before the first that can't be read."""
    payloads = []
    try:
        while data[gate:gate + 1] not in (CLOSED, b""):
            payload, gate = record_at(data, gate)
            payloads.append(payload)
    except Refused:
        pass
    return payloads


def refusals_of(data, arch, start, payloads):
    """What may be said of a journal where the plan has this start and these payloads: refusals by their codes, or nothing where
    the plan goes on. `E` alone stands for any refusal."""
    if is_unmade(data):
        return []
    try:
        version, named, begun, gate = head_of(data)
    except Refused as refused:
        return [str(refused), "E29 OtherArchitecture"] if data[:8] == b"DPJRNL02" else [str(refused)]
    if version == 2 and named != arch:
        return ["E29 OtherArchitecture"]
    done = records_before(data, gate)
    if begun != start or done != payloads[:len(done)]:
        return ["E"]
    try:
        return [] if journal_of(data) else None
    except Refused as refused:
        return [str(refused)]


def faults_of(printed, before, after, texts, arch):
    """What is wrong with what `apply` says of a journal and leaves of it; `before` and `after` are its bytes, or None where it
    isn't there."""
    said = SAID.fullmatch(printed.err)
    if printed.status != 0 and not said:
        return ["the journal was changed"] if after != before else []
    faults = []
    if said and after != before and not is_cut(before or b"", after):
        faults.append("more than a torn end was cut off the journal")
    found = planned(texts, arch)
    if found and not said:
        wanted = refusals_of(before or b"", arch, *found)
        faults += [f"the journal is to be refused as {' or '.join(wanted)}"] if wanted else []
    elif found and said[1] != b"E20 Disk":
        wanted = refusals_of(before or b"", arch, *found)
        if "E" not in wanted and said[1].decode() not in wanted:
            faults.append(f"the journal is to be refused as {' or '.join(wanted) or 'nothing'}")
    return faults


def is_cut(before, after):
    """Whether the bytes are those of before without what stood behind the closed gate."""
    try:
        return after == before[:journal_of(before).gate + 1]
    except Refused:
        return False
