"""Pins of apt (apt_preferences(5)) as the plain records that debplan reads, where these say the same of the lists as they are."""
import collections
import itertools
import re

from debplan import control

PIN_KEYS = {"a": ("Suite",), "n": ("Codename",), "v": ("Version",), "c": ("Component",), "o": ("Origin",), "l": ("Label",)}
NAME = re.compile(r"[A-Za-z0-9][A-Za-z0-9+.-]*")
VERSION = re.compile(r"(?:[0-9]+:)?[A-Za-z0-9.+~:-]+")
PLAIN_PATTERN = re.compile(r"[A-Za-z0-9+.:~_ *?-]*")
PLAIN_EXPRESSION = re.compile(r"(?:[A-Za-z0-9+.:~_^$*?|()-]|\\[.+*?()|$^])*")
Version = collections.namedtuple("Version", "text source keys")
# What a record becomes: the texts of plain records, the names that it names itself, its pin, and whether a version of a source is meant.
Plain = collections.namedtuple("Plain", "texts named pin is_of_source")
# What apt calls the archive of the status file, in a release pin.
NOW = ("now", "a=now")


class Unreadable(Exception):
    """A pin that can't be written as plain records, with the reason."""


class Unknown(Exception):
    """A record that apt itself takes no notice of, with the reason."""


# What pins are about


class Lists:
    """The versions of each package in the indices and the status file, which are read when they are first asked for."""

    def __init__(self, folder, stanzas, arch):
        self.stanzas, self.arch, self.found = stanzas, arch, None
        self.status = {"File": str(folder / "status")}
        self.places = [*stanzas, self.status]

    def add(self, found, fields, keys):
        """Puts the version of a stanza behind the others of its name, if it is for the architecture."""
        if "Package" in fields and "Version" in fields and fields.get("Architecture") in (self.arch, "all"):
            source = fields.get("Source", fields["Package"]).split(" ")[0]
            found[fields["Package"]].append(Version(fields["Version"], source, keys))

    def versions(self):
        """The versions of each name, each with its source and the release keys of the index that has it."""
        if self.found is None:
            self.found = collections.defaultdict(list)
            for keys in self.places:
                for fields in control.stanzas_in(keys["File"]):
                    self.add(self.found, fields, keys)
        return self.found

    def versions_of(self, names):
        """The same of these names, without reading what the others have."""
        if self.found is not None:
            return self.found
        found = collections.defaultdict(list)
        for keys in self.places if names else ():
            for fields in control.stanzas_named(keys["File"], names):
                self.add(found, fields, keys)
        return found

    def names(self, is_meant):
        """The names of packages that are meant."""
        return [name for name in self.versions() if is_meant(name)]

    def have_hosts(self):
        """Whether each index has a host."""
        return all("Host" in keys for keys in self.stanzas)

    def values(self, key):
        """The values that the indices have of a key of release pins, or of the host."""
        return sorted({keys[it] for keys in self.stanzas for it in PIN_KEYS.get(key, (key,)) if it in keys})


def is_pattern(text):
    return len(text) > 1 and text[0] == text[-1] == "/" or any(it in text for it in "*?[")


def matcher_of(text):
    """Whether a text is meant by a word of a pin, as apt has it: a pattern, a regular expression or a text, in any case."""
    if len(text) > 1 and text[0] == text[-1] == "/":
        if not PLAIN_EXPRESSION.fullmatch(text[1:-1]):
            raise Unreadable(f"'{text}' is a regular expression of another kind")
        found = re.compile(text[1:-1], re.IGNORECASE)
        return lambda it: bool(found.search(it))
    if not PLAIN_PATTERN.fullmatch(text):
        raise Unreadable(f"'{text}' is a pattern of another kind")
    wanted = re.escape(text).replace(r"\*", ".*").replace(r"\?", ".")
    found = re.compile(wanted, re.IGNORECASE)
    return lambda it: bool(found.fullmatch(it))


# Pins as plain ones


class Pin:
    """A pin, as the plain pins that say the same together, and as a test of a version."""

    def __init__(self, texts, is_met):
        self.texts, self.is_met = texts, is_met


def values_for(lists, key, word):
    """The values that the indices have for a word of a pin. A plain word that no index has stays."""
    is_meant = matcher_of(word)
    found = [value for value in lists.values(key) if is_meant(value)]
    return found or ([] if is_pattern(word) else [word])


def items_of(rest):
    """The items of a release pin, of a key the last one; what says nothing is passed over, as apt does."""
    items = {}
    for item in filter(None, (it.strip() for it in rest.split(","))):
        key, found, value = item.partition("=")
        key, value = key.strip().lower(), value.strip()
        if not found or not value or key == "b" or len(key) != 1 or key == "a" and value.lower() == "now":
            raise Unreadable(f"'{item}' isn't one of a= n= v= c= o= l= with a value of an index")
        if key in PIN_KEYS:
            items[key] = value
    if not items:
        raise Unreadable(f"'{rest}' asks for nothing that is known")
    return items


def release_pin(lists, rest):
    """A release pin, for these names."""
    if rest == "*":
        # apt gives this priority to every version, as by `version *`, and so to that of the status file too
        return Pin(["version *"], lambda it: True)
    if rest.lower() in NOW and lists.have_hosts():
        # for apt the status file is the archive `now`, and for debplan what has no host
        return Pin(['origin ""'], lambda it: it.keys is lists.status)
    if "=" not in rest and "," not in rest:
        return word_pin(lists, rest)
    items = items_of(rest)
    values = {key: values_for(lists, key, word) for key, word in items.items()}
    texts = ["release " + ",".join(f"{key}={value}" for key, value in zip(values, chosen))
             for chosen in itertools.product(*values.values())]
    return Pin(texts, lambda it: all(any(it.keys.get(name) in values[key] for name in PIN_KEYS[key]) for key in values))


def word_pin(lists, word):
    """A release pin of a bare word: a suite or a codename, or with a digit in front a version."""
    if not word or matcher_of(word)("now"):
        raise Unreadable(f"'release {word}' is about the status file too")
    keys = "v" if word[0].isdigit() else "an"
    pins = [(key, value) for key in keys for value in values_for(lists, key, word)]
    return Pin([f"release {key}={value}" for key, value in pins],
               lambda it: any(it.keys.get(name) == value for key, value in pins for name in PIN_KEYS[key]))


def origin_pin(lists, rest):
    """A pin of a host."""
    word = rest[1:-1] if len(rest) > 1 and rest[0] == rest[-1] == '"' else rest
    if not word and lists.have_hosts():
        return Pin([], lambda it: False)
    if not word or '"' in word:
        raise Unreadable("an empty host is for apt no host of the status file, and for debplan it is")
    hosts = values_for(lists, "Host", word)
    return Pin([f"origin {host}" for host in hosts], lambda it: it.keys.get("Host") in hosts)


def version_matcher_of(rest):
    """Whether a version is meant: with a * at its end the rest is a beginning, or by itself a pattern of all of it."""
    stem = rest[:-1] if rest.endswith("*") else rest
    is_whole = matcher_of(stem)
    return lambda it: stem != rest and it.lower().startswith(stem.lower()) or is_whole(it)


def version_pin(lists, rest, names):
    """A pin of a version, for these names."""
    if names == ["*"]:
        raise Unknown("apt takes no notice of a version for all packages")
    is_meant = version_matcher_of(rest)
    if VERSION.fullmatch(rest) or re.fullmatch(r"[^/*?\[\s]+\*|\*", rest):
        return Pin([f"version {rest}"], lambda it: is_meant(it.text))
    texts = sorted({it.text for name in names for it in lists.versions().get(name, ()) if is_meant(it.text)})
    return Pin([f"version {text}" for text in texts], lambda it: is_meant(it.text))


def pin_of(value, lists, names):
    """A pin of a record that is about these names."""
    word, _, rest = value.partition(" ")
    kinds = {"release": lambda: release_pin(lists, rest.strip()), "origin": lambda: origin_pin(lists, rest.strip()),
             "version": lambda: version_pin(lists, rest.strip(), names)}
    if word not in kinds:
        raise Unknown(f"apt takes no notice of '{value}', which is no pin that apt_preferences(5) knows")
    return kinds[word]()


# Records


def names_of_word(word, lists):
    """The names that a word of `Package` is about, and the source that they have to be of, if it asks for one."""
    source = word.startswith("src:")
    name, _, of = word[4 if source else 0:].partition(":")
    if of not in ("", "any", lists.arch):
        return [], None
    if source:
        is_meant = matcher_of(name)
        return lists.names(lambda it: any(is_meant(version.source) for version in lists.versions()[it])), is_meant
    if is_pattern(name):
        return lists.names(matcher_of(name)), None
    # (apt looks for a package of any other name, of which there is none)
    return [name] if NAME.fullmatch(name) else [], None


def names_of(value, lists):
    """The names that a record is about by name, and those that it is about by their source, with the test of that."""
    if value.split() == ["*"]:
        return ["*"], {}
    found = [names_of_word(word, lists) for word in value.split()]
    named = list(dict.fromkeys(name for names, is_meant in found for name in names if not is_meant))
    return named, {name: is_meant for names, is_meant in found for name in names if is_meant and name not in named}


def by_source(sourced, pin, lists):
    """The names of which every version that a pin matches is of the source, and of the others the versions that are."""
    names, single = [], []
    for name, is_meant in sourced.items():
        met = [version for version in lists.versions()[name] if pin.is_met(version)]
        own = [version.text for version in met if is_meant(version.source)]
        names += [name] if own and len(own) == len(met) else []
        single += [(name, text) for text in dict.fromkeys(own) if len(own) < len(met)]
    return names, single


def priority_of(value):
    """A priority, as debplan can read it: the digits in front, as apt takes them."""
    found = re.match(r"[+-]?[0-9]+", value)
    if found and -32768 <= int(found.group()) <= 32767:
        return found.group()
    raise Unreadable(f"'{value}' is no whole number from -32768 to 32767")


def plain_of(fields, lists):
    """What a record becomes."""
    if not fields.get("pin"):
        raise Unknown("apt takes no notice of a record without a Pin")
    for field in ("package", "pin-priority"):
        if not fields.get(field):
            raise Unreadable(f"it has no {field}")
    named, sourced = names_of(fields["package"], lists)
    pin, priority = pin_of(fields["pin"], lists, [*named, *sourced]), priority_of(fields["pin-priority"])
    names, single = by_source(sourced, pin, lists)
    about = "\n ".join([*named, *names])
    plain = [(about, text) for text in pin.texts if about] + [(name, f"version {text}") for name, text in single]
    texts = [f"Package: {name}\nPin: {text}\nPin-Priority: {priority}\n" for name, text in plain]
    return Plain(texts, named, pin, bool(names or single))


def is_matched(plain, lists, versions):
    """Whether a record is about a version that there is; of names the versions are those that are given."""
    if plain.named == ["*"]:
        return any(plain.pin.is_met(Version("", "", keys)) for keys in lists.places)
    return plain.is_of_source or any(plain.pin.is_met(version) for name in plain.named for version in versions.get(name, ()))


def written(fields):
    """A record in a line, as it is written."""
    return ", ".join(" ".join(fields.get(field, "").split()) for field in ("package", "pin", "pin-priority"))
