"""Changes of texts by chance, for dev/fuzz. Each is a function from a `random.Random`, the text, and the texts of the other
files, from which words are taken, to the changed text; of an empty text it makes one of a few bytes. All draw from the chance
that they are given and from nothing else."""
import re

BYTES = b"\0\t\n\v\r !\"#'()*+,-./0129:;<=>@AZ[\\]^_`az{|}~\x7f\x80\xc3\xff"
NUMBERS = ["0", "00", "1", "-1", "+1", "007", "65535", "65536", "1000", "1001", "32767", "32768", "-32768", "-32769", "100000",
           *(str((1 << power) + more) for power in (31, 32, 63, 64) for more in (-1, 0, 1)), "9" * 40, "0" * 400 + "1"]
FIELDS = ["Package", "Version", "Architecture", "Status", "Config-Version", "Pre-Depends", "Depends", "Conflicts", "Breaks", "Provides",
          "Essential", "Protected", "Conffiles", "Explanation", "Pin", "Pin-Priority", "File", "Suite", "Archive", "Codename", "Component",
          "Origin", "Label", "Host", "NotAutomatic", "ButAutomaticUpgrades", "Filename", "SHA256", "Size", "Multi-Arch",
          "Triggers-Pending", "Triggers-Awaited", "X"]
RELATIONS = ["Pre-Depends", "Depends", "Conflicts", "Breaks", "Provides"]
VALUES = ["", "yes", "no", "all", "amd64", "i386", "*", "x", "install ok installed", "hold ok installed", "install ok unpacked",
          "install reinstreq half-installed", "deinstall ok config-files", "install ok half-configured", "purge ok not-installed",
          "install ok triggers-pending", "install ok triggers-awaited", "1", "0:1.00-0", "2147483647:1", "2147483648:1", "1.0~", "1-",
          ":1", "1:", "~", "1_0", "a | b", "a (>= 1) , b", "a:any", "a:native (<< 2)", "a:i386", "a (", "a (=1)", "a (> 1)", "a ( = 1 ) |",
          ", ,", "v (= 1), v", "release a=stable", "release a=x, n=y", "release l=", "version 1*", "version *", "origin \"\"",
          "origin h", "1001", "-1", "32768", "/dev/null", "index1", ".", "/", "nowhere", "\xe9"]
WORDS = ["install", "remove", "purge", "upgrade", "upgrade-all", "no-remove", "all-versions", "unpack", "configure", "deconfigure",
         "plan 1", "plan 2", "end 1", "refutation 1", "refutation 2", "same", "predepends", "depends", "conflicts", "breaks", "goal", "hold", "essential", "keep",
         "derive :", "-1", ":"]
MOST_BYTES = 1 << 20


def place(chance, text):
    return chance.randrange(len(text) + 1)


def part(chance, text, most=64):
    """The ends of a part of the text, mostly a short one."""
    first = place(chance, text)
    length = chance.choice((1, 2, 4, most, len(text)))
    return first, min(len(text), first + chance.randrange(length + 1))


def chosen(chance, things):
    """One of these as bytes; a name of a thing is spelled in UTF-8."""
    it = chance.choice(things)
    return it if isinstance(it, bytes) else it.encode()


# Bytes


def a_bit_flipped(chance, text, _):
    if not text:
        return chosen(chance, VALUES)
    at = chance.randrange(len(text))
    return text[:at] + bytes([text[at] ^ 1 << chance.randrange(8)]) + text[at + 1:]


def a_byte_put(chance, text, _):
    at = place(chance, text)
    return text[:at] + bytes([chance.choice(BYTES)]) + text[at + 1:]


def a_byte_added(chance, text, _):
    at = place(chance, text)
    return text[:at] + bytes([chance.choice(BYTES)]) + text[at:]


def the_end_cut(chance, text, _):
    return text[:place(chance, text)]


def the_last_newline_cut(_, text, __):
    return text[:-1]


def the_beginning_cut(chance, text, _):
    return text[place(chance, text):]


def a_part_cut(chance, text, _):
    first, end = part(chance, text)
    return text[:first] + text[end:]


def a_part_doubled(chance, text, _):
    first, end = part(chance, text)
    return text[:end] + text[first:]


def a_part_repeated(chance, text, _):
    """A short part many times."""
    first, end = part(chance, text, 16)
    end = min(end, first + 256)
    times = min(1 << chance.randrange(13), MOST_BYTES // max(1, end - first))
    return text[:first] + text[first:end] * times + text[end:]


def a_part_moved(chance, text, _):
    first, end = part(chance, text)
    rest = text[:first] + text[end:]
    at = place(chance, rest)
    return rest[:at] + text[first:end] + rest[at:]


def a_part_of_another(chance, text, others):
    """A part of another file put in."""
    other = chosen(chance, others or [b"x"])
    first, end = part(chance, other)
    at = place(chance, text)
    return text[:at] + other[first:end] + text[at:]


# Lines


def with_lines(change):
    """A change of the list of lines as one of the text."""
    def changed(chance, text, others):
        lines = text.split(b"\n")
        change(chance, lines, others)
        return b"\n".join(lines)
    changed.__name__ = change.__name__
    return changed


@with_lines
def two_lines_exchanged(chance, lines, _):
    one, other = chance.randrange(len(lines)), chance.randrange(len(lines))
    lines[one], lines[other] = lines[other], lines[one]


@with_lines
def a_line_cut(chance, lines, _):
    del lines[chance.randrange(len(lines))]


@with_lines
def a_line_doubled(chance, lines, _):
    at = chance.randrange(len(lines))
    lines.insert(at, lines[at])


@with_lines
def a_line_moved(chance, lines, _):
    line = lines.pop(chance.randrange(len(lines)))
    lines.insert(chance.randrange(len(lines) + 1), line)


@with_lines
def a_line_of_another(chance, lines, others):
    other = chosen(chance, others or [b"x"])
    lines.insert(chance.randrange(len(lines) + 1), chance.choice(other.split(b"\n")))


@with_lines
def a_line_indented(chance, lines, _):
    at = chance.randrange(len(lines))
    lines[at] = chance.choice((b" ", b"\t")) + lines[at]


@with_lines
def a_line_added(chance, lines, _):
    lines.insert(chance.randrange(len(lines) + 1), chance.choice((b"", b" ", b" \t", b"# x", b"#", b" x", b":", b"X:", b"-x: 1", b"x")))


@with_lines
def lines_in_no_order(chance, lines, _):
    first = chance.randrange(len(lines))
    end = min(len(lines), first + chance.randrange(2, 9))
    some = lines[first:end]
    chance.shuffle(some)
    lines[first:end] = some


# Fields and words


def a_field_line(chance, lines):
    """The number of a line that begins a field, or of any."""
    found = [number for number, line in enumerate(lines) if b":" in line and line[:1] not in b" \t#"]
    return chance.choice(found or range(len(lines)))


@with_lines
def a_field_renamed(chance, lines, _):
    at = a_field_line(chance, lines)
    lines[at] = chosen(chance, FIELDS) + b":" + lines[at].partition(b":")[2]


@with_lines
def a_field_in_other_case(chance, lines, _):
    at = a_field_line(chance, lines)
    name, colon, value = lines[at].partition(b":")
    lines[at] = chance.choice((name.lower(), name.upper(), name.swapcase())) + colon + value


@with_lines
def a_value_put(chance, lines, _):
    at = a_field_line(chance, lines)
    lines[at] = lines[at].partition(b":")[0] + b": " + chosen(chance, VALUES)


@with_lines
def two_values_exchanged(chance, lines, _):
    one, other = a_field_line(chance, lines), a_field_line(chance, lines)
    (name, colon, value), (name2, colon2, value2) = lines[one].partition(b":"), lines[other].partition(b":")
    lines[one], lines[other] = name + colon + value2, name2 + colon2 + value


@with_lines
def a_field_added(chance, lines, _):
    lines.insert(chance.randrange(len(lines) + 1), chosen(chance, FIELDS) + b": " + chosen(chance, VALUES))


def a_number_put(chance, text, _):
    """A number that is at a limit in the place of one, or anywhere."""
    found = list(re.finditer(rb"-?[0-9]+", text))
    if not found:
        at = place(chance, text)
        return text[:at] + chosen(chance, NUMBERS) + text[at:]
    it = chance.choice(found)
    return text[:it.start()] + chosen(chance, NUMBERS) + text[it.end():]


def a_word_put(chance, text, others):
    """A word of this or of another file in the place of one."""
    found = list(re.finditer(rb"[^\s,|()]+", text))
    words = re.findall(rb"[^\s,|()]+", chosen(chance, [*others, text])) or [b"x"]
    if not found:
        return chance.choice(words)
    it = chance.choice(found)
    return text[:it.start()] + chance.choice(words) + text[it.end():]


def a_known_word_put(chance, text, _):
    """A word of requests, plans and refutations in the place of one."""
    return a_word_put(chance, text, [chosen(chance, WORDS)])


# Sizes at the limits (docs/FORMATS.md, "Limits"), of the files for which there are such


def with_stanza(text, line):
    """The text with a line added to its first stanza, or as a stanza of its own."""
    first, newline, rest = text.partition(b"\n")
    return first + newline + line + b"\n" + rest if newline else text + line + b"\n"


def atoms_at_the_limit(chance, text, _):
    """A relation field of 65,535 or 65,536 atoms; they are of one clause, of many, or all the same."""
    name, parted = chosen(chance, RELATIONS), chance.choice((b", ", b" | ", b","))
    count, atom = 65_535 + chance.randrange(2), chance.choice((b"a", b"a (>= 1)", b"p%d"))
    atoms = parted.join(atom % number for number in range(count)) if b"%" in atom else parted.join([atom] * count)
    return with_stanza(text, name + b": " + atoms)


def fields_in_one_stanza(_, text, __):
    return with_stanza(text, b"".join(b"X%d: x\n" % number for number in range(20_000))[:-1])


def stanzas_many_times(chance, text, _):
    """Stanzas with names of their own, a thousand times or some more."""
    count = chance.choice((1000, 1001, 3000))
    state = b"Status: install ok installed\n" if b"\nStatus:" in text else b""
    return text + b"\n" + b"".join(b"Package: q%d\nVersion: 1\nArchitecture: all\n%s\n" % (number, state) for number in range(count))


def sources_at_the_limit(chance, text, _):
    """A thousand indices, or one more: of the first one there is, or of one without packages."""
    first = text.strip(b"\n").split(b"\n\n")[0]
    stanza = chance.choice((b"File: /dev/null", first if b"File:" in first else b"File: /dev/null"))
    return (stanza + b"\n\n") * (1000 + chance.randrange(2))


def goals_at_the_limit(chance, text, _):
    count = 100_000 + chance.randrange(2)
    line = chance.choice([b"no-remove", b"upgrade-all", *filter(None, text.split(b"\n"))])
    return text + b"\n" + (line + b"\n") * (count - text.count(b"\n"))


def steps_at_the_limit(chance, text, _):
    count = 1_000_000 + chance.randrange(2)
    line = chance.choice([b"configure a", *filter(None, text.split(b"\n")[1:])])
    return b"plan 1\n" + (line + b"\n") * count


def one_group_of_many(chance, _, __):
    """A step that configures 100,000 names."""
    return b"plan 1\nconfigure " + b" ".join(b"p%06d" % number for number in range(chance.choice((1000, 100_000)))) + b"\n"


def literals_at_the_limit(chance, text, _):
    """A derived line with a million literals or hints, or one more."""
    count = 1_000_000 + chance.randrange(2)
    many = b" ".join(b"%d" % number for number in range(1, count + 1))
    line = b"derive " + (many + b" : 1" if chance.randrange(2) else b": " + many)
    return (text if text.endswith(b"\n") else b"refutation 1\n") + line + b"\n"


def lines_of_a_refutation(chance, text, _):
    line = chance.choice([b"goal 1", *filter(None, text.split(b"\n")[1:])])
    return text + (line + b"\n") * 200_000


def names_of_a_record(chance, text, _):
    """A record for many names, or many records."""
    if chance.randrange(2):
        names = b" ".join(b"p%d" % number for number in range(50_000))
        return text + b"\n\nPackage: " + names + b"\nPin: version 1\nPin-Priority: 1\n"
    return text + b"\n\n" + b"Package: *\nPin: release a=x\nPin-Priority: 1\n\n" * 20_000


SMALL = [a_bit_flipped, a_byte_put, a_byte_added, the_end_cut, the_last_newline_cut, the_beginning_cut, a_part_cut, a_part_doubled,
         a_part_repeated, a_part_moved, a_part_of_another, two_lines_exchanged, a_line_cut, a_line_doubled, a_line_moved,
         a_line_of_another, a_line_indented, a_line_added, lines_in_no_order, a_field_renamed, a_field_in_other_case, a_value_put,
         two_values_exchanged, a_field_added, a_number_put, a_word_put, a_known_word_put]
# What keeps the form of a text is drawn more often, so that more of the program is reached.
KEEPING = [two_lines_exchanged, a_line_cut, a_line_doubled, a_line_of_another, a_value_put, two_values_exchanged, a_number_put,
           a_word_put, a_word_put, a_word_put]
LARGE = {"status": [atoms_at_the_limit, fields_in_one_stanza, stanzas_many_times],
         "index": [atoms_at_the_limit, atoms_at_the_limit, fields_in_one_stanza, stanzas_many_times],
         "sources": [sources_at_the_limit], "preferences": [names_of_a_record], "request": [goals_at_the_limit],
         "plan": [steps_at_the_limit, one_group_of_many], "refutation": [literals_at_the_limit, lines_of_a_refutation]}


def change_of(chance, kind):
    """A change for a file of this kind: one in thirty is to a size at a limit."""
    if chance.randrange(30) == 0 and kind in LARGE:
        return chance.choice(LARGE[kind])
    return chance.choice(KEEPING if chance.randrange(2) else SMALL)
