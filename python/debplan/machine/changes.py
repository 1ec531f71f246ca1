"""What a plan changes on a machine, as lists of names with their versions, old and new, with the reasons why a package goes, and how
much there is to download and to store: what tools/ask prints of a plan."""
import collections
import re

from debplan import control

# A list among the sentences on a plan, and a package in it with the reason behind it.
LIST = re.compile(r"(New|Upgraded|Downgraded|Removed|Purged|Deconfigured|Older than the candidate|Broken before, mended|Broken before, removed): (.*)")
PACKAGE = re.compile(r"(\S+) \S+ \((.*)\)")
ASKED = re.compile(r"asked for by goal \d+")
UNITS = ("", "k", "M", "G", "T")
Change = collections.namedtuple("Change", "name old new")


def items_of(text):
    """The items of a list of a sentence: the commas in parentheses separate none."""
    items, depth = [""], 0
    for byte in text:
        depth += (byte == "(") - (byte == ")")
        if byte == "," and not depth:
            items.append("")
        else:
            items[-1] += byte
    return [item.strip() for item in items]


def one_a_line(sentences):
    """The sentences, with each item of a list on a line of its own."""
    for sentence in sentences:
        found = LIST.fullmatch(sentence)
        if found:
            yield f"{found.group(1)}:"
            yield from (f"  {item}" for item in items_of(found.group(2)))
        else:
            yield sentence


def reasons_in(sentences):
    """Why each package that is removed goes, as the sentences say it, but for those that a goal asks to be removed."""
    found = {}
    for sentence in sentences:
        listed = LIST.fullmatch(sentence)
        for item in items_of(listed.group(2)) if listed and listed.group(1) in ("Removed", "Broken before, removed") else ():
            package = PACKAGE.fullmatch(item)
            if package and not ASKED.fullmatch(package.group(2)):
                found[package.group(1)] = package.group(2)
    return found


def mended_in(sentences):
    """What was broken before the plan and isn't behind it, as the sentences say it."""
    found = filter(None, map(LIST.fullmatch, sentences))
    return [item for listed in found if listed.group(1) == "Broken before, mended" for item in items_of(listed.group(2))]


def size_text(count):
    """A number of bytes as apt writes it: with a point below 100 of a unit, in thousands."""
    number, unit = float(abs(count)), 0
    while unit + 1 < len(UNITS) and number >= 10000:
        number, unit = number / 1000, unit + 1
    return f"{number:.1f} {UNITS[unit]}B" if number < 100 and unit else f"{number:.0f} {UNITS[unit]}B"


class Changes:
    """What the steps of a plan change, beginning at the packages of a status file."""

    def __init__(self, before, steps):
        self.before, self.steps = before, steps
        self.unpacked = {step[1]: step[2] for step in steps if step[0] == "unpack"}
        removed = dict.fromkeys(step[1] for step in steps if step[0] in ("remove", "purge") and before.version(step[1]))
        self.removed = [Change(name, before.version(name), None) for name in sorted(removed) if name not in self.unpacked]
        self.purged = sorted(step[1] for step in steps if step[0] == "purge")
        pairs = [Change(name, before.version(name), new) for name, new in sorted(self.unpacked.items())]
        self.new = [it for it in pairs if not it.old]
        self.upgraded = [it for it in pairs if it.old and control.version_key(it.old) < control.version_key(it.new)]
        self.downgraded = [it for it in pairs if it.old and control.version_key(it.old) > control.version_key(it.new)]
        self.again = [it for it in pairs if it.old and control.version_key(it.old) == control.version_key(it.new)]

    def counts(self):
        """The line of counts."""
        kinds = {"new": self.new, "upgraded": self.upgraded, "downgraded": self.downgraded, "removed": self.removed, "purged": self.purged}
        return ", ".join(f"{len(them)} {kind}" for kind, them in kinds.items()) + f": {len(self.steps)} steps"

    def sizes(self, stanzas):
        """The line on what is to be downloaded and stored, by the stanzas of the indices; none where nothing is unpacked or removed."""
        if not self.unpacked and not self.removed:
            return []
        unpacked = [stanzas[pair] for pair in self.unpacked.items() if pair in stanzas]
        more = sum(number_in(fields, "Installed-Size") for fields in unpacked)
        less = sum(number_in(self.before.records[name], "Installed-Size") for name in {*self.unpacked, *(it.name for it in self.removed)}
                   if self.before.version(name))
        download = size_text(sum(number_in(fields, "Size") for fields in unpacked))
        return [f"{download} to download, {size_text((more - less) * 1024)} {'more' if more >= less else 'less'} on disk"]

    def lists(self, asked, sentences):
        """The lines of the lists, one name a line, with what the sentences say of them. What goes because it was asked for stands apart
        from what goes for a reason."""
        reasons = reasons_in(sentences)
        wanted = [it for it in self.removed if it.name in asked]
        others = [it for it in self.removed if it.name not in asked]
        yield from listed("new", (f"{it.name} {it.new}" for it in self.new))
        yield from listed("upgraded", (f"{it.name} {it.old} to {it.new}" for it in self.upgraded))
        yield from listed("downgraded", (f"{it.name} {it.old} to {it.new}" for it in self.downgraded))
        yield from listed("unpacked again in the same version", (f"{it.name} {it.new}" for it in self.again))
        yield from listed("removed, as asked for", (f"{it.name} {it.old}" for it in wanted))
        yield from listed("removed, and not asked for", (f"{it.name} {it.old}{behind(reasons.get(it.name))}" for it in others))
        yield from listed("purged", self.purged)
        yield from listed("broken before, and mended", mended_in(sentences))


def listed(title, lines):
    """A list under its title; nothing where it is empty."""
    lines = list(lines)
    return [f"{title}:", *(f"  {line}" for line in lines)] if lines else []


def behind(reason):
    return f": {reason}" if reason else ""


def number_in(fields, name):
    """The value of a field that is a number; 0 where it is none."""
    value = fields.get(name, "")
    return int(value) if value.isdigit() else 0
